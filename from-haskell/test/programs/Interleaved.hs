module Main (main) where

import Control.Concurrent
import Control.Monad

-- Two threads that read and write a counter which nothing guards: an update may be lost.
bump :: MVar Int -> IO ()
bump cell = do
  n <- readMVar cell
  _ <- swapMVar cell (n + 1)
  return ()

main :: IO ()
main = do
  cell <- newMVar 0
  done <- newEmptyMVar
  replicateM_ 2 (forkIO (bump cell >> putMVar done ()))
  replicateM_ 2 (takeMVar done)
  readMVar cell >>= print
