module Main (main) where

import Control.Exception

main :: IO ()
main = do
  r <- try (ioError (userError "x"))
  putStrLn $ case r of
    Left e -> show (e :: SomeException)
    Right () -> "fine"
