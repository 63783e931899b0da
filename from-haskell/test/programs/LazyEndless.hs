module Main (main) where

import Control.Concurrent

main :: IO ()
main = do
  cell <- newMVar 2
  n <- readMVar cell
  print (take 3 [1 :: Int ..])
  print (takeWhile (< 40) (iterate (* 3) 1))
  putStrLn (concat (replicate 2 (show (n :: Int))))
