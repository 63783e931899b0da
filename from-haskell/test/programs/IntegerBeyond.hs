module Main (main) where

import Control.Concurrent

-- The mark: in GHC this prints a number of 20 digits.
main :: IO ()
main = do
  cell <- newMVar 9000000000
  n <- readMVar cell
  print (n * n)
