module Main (main) where

import Control.Concurrent

-- A loop of numbers that comes nearer to its bound ends.
downFrom :: Int -> [Int]
downFrom n = if n <= 0 then [] else n : downFrom (n - 1)

main :: IO ()
main = do
  cell <- newMVar 3
  n <- readMVar cell
  out <- newMVar (downFrom n)
  readMVar out >>= print
  print [x * x | x <- [1 .. n], odd x]
