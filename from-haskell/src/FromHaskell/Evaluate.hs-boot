module FromHaskell.Evaluate where

import FromHaskell.Ghc (CoreExpr, DataCon)
import FromHaskell.Monad (Translate)
import FromHaskell.Value (Environment, Function, Value)

evaluate :: Environment -> CoreExpr -> Translate Value
apply :: Value -> Value -> Translate Value
applyAll :: Value -> [Value] -> Translate Value
saturate :: Value -> Translate Value
construct :: DataCon -> Int -> Int -> [Value] -> Translate Value
evaluateBody :: Function -> [Value] -> Translate Value
applyPrelude :: String -> [Value] -> Translate Value
