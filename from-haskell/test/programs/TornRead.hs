module Main (main) where

import Control.Concurrent

-- A mistake: two cells that belong together are read one behind the other.
main :: IO ()
main = do
  low <- newMVar (1 :: Int)
  high <- newMVar (1 :: Int)
  done <- newEmptyMVar
  _ <- forkIO (swapMVar low 2 >> swapMVar high 2 >> putMVar done ())
  a <- readMVar low
  b <- readMVar high
  takeMVar done
  print (a, b)
