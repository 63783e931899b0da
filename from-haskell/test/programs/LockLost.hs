module Main (main) where

import Control.Concurrent

-- A mistake: a lock without a mask is lost with its owner.
withLock :: MVar () -> IO a -> IO a
withLock lock act = do
  takeMVar lock
  answer <- act
  putMVar lock ()
  return answer

main :: IO ()
main = do
  lock <- newMVar ()
  t <- forkIO (withLock lock (putStrLn "inside"))
  killThread t
  withLock lock (putStrLn "main")
