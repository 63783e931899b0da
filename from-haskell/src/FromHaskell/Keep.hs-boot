module FromHaskell.Keep
  ( kept
  , keptValue
  ) where

import FromHaskell.Monad (Translate)
import FromHaskell.Script (Expression)
import FromHaskell.Value (Value)

kept :: String -> Value -> Translate Expression
keptValue :: Expression -> String -> Translate Value
