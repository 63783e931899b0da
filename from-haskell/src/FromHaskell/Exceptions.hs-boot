module FromHaskell.Exceptions where

import FromHaskell.Monad (Translate)
import FromHaskell.Script (Expression)
import FromHaskell.Value (Value)

reifyException :: Value -> Translate Expression
