module Main (main) where

import Control.Concurrent
import Control.Exception

-- A pipeline whose middle is killed: main asks what came through, and what is left.
main :: IO ()
main = do
  a <- newEmptyMVar
  b <- newEmptyMVar
  t <- forkIO (takeMVar a >>= \n -> putMVar b (n * 2))
  putMVar a (4 :: Int)
  killThread t
  r <- tryTakeMVar b
  left <- tryTakeMVar a
  print (r, left)
