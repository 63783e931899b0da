module Main (main) where

import Control.Exception

newtype Code = Code Int deriving Show

instance Exception Code

main :: IO ()
main = do
  r <- try (throwIO (Code 3))
  print (either (\(Code n) -> n) (const 0) (r :: Either Code ()))
