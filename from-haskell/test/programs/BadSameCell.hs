module Main (main) where

import Control.Concurrent

main :: IO ()
main = do
  a <- newMVar ()
  b <- newMVar ()
  print (a == b)
