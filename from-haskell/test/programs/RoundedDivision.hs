module Main (main) where

import Control.Concurrent

main :: IO ()
main = do
  cell <- newMVar (-7 :: Int)
  n <- readMVar cell
  print (n `div` 2, n `mod` 2)
  print (n `quot` 2, n `rem` 2)
  print (abs n, signum n, negate n)
  print (Just n, [n, 1])
