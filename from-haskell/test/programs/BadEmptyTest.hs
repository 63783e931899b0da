module Main (main) where

import Control.Concurrent

main :: IO ()
main = do
  v <- newMVar ()
  isEmptyMVar v >>= print
