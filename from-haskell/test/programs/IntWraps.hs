module Main (main) where

import Control.Concurrent

main :: IO ()
main = do
  cell <- newMVar (maxBound :: Int)
  n <- readMVar cell
  print (n + 1 < n)
  print (minBound == n + 1)
