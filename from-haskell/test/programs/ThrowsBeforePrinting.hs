module Main (main) where

import Control.Concurrent
import Control.Exception

-- A number that may throw is evaluated before the first character is printed, in GHC too.
main :: IO ()
main = do
  cell <- newMVar (0 :: Int)
  n <- readMVar cell
  r <- try (print (5 `div` n))
  putStrLn (case r of Left DivideByZero -> "zero"; Left _ -> "other"; Right () -> "printed")
