module Main (main) where

import Control.Concurrent

main :: IO ()
main = do
  v <- newMVar [1 :: Int ..]
  readMVar v >>= print . take 2
