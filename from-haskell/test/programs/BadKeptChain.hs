-- A function in a cell that holds the function which was there before: a type without end.
module Main (main) where

import Control.Concurrent

main :: IO ()
main = do
  change <- newMVar (+ (1 :: Int))
  modifyMVar_ change (return . (. (* 2)))
  f <- readMVar change
  print (f 5)
