module Main (main) where

import Control.Concurrent

main :: IO ()
main = do
  v <- newMVar "abc"
  readMVar v >>= print
