module FromHaskell.Emit where

import FromHaskell.Ghc (Type)
import FromHaskell.Monad (Translate)
import FromHaskell.Value (Value)

emitAction :: Maybe Type -> String -> Value -> Translate Value
