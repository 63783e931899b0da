module Main (main) where

import Control.Concurrent

-- The same by modifyMVar_: the counter survives the kill.
main :: IO ()
main = do
  counter <- newMVar (0 :: Int)
  t <- forkIO (modifyMVar_ counter (return . (+ 1)))
  killThread t
  readMVar counter >>= print
