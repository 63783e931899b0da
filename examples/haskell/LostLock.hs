-- | The mistake that one writes first: between the take and the put the owner may be killed, and the lock is lost.
module Main (main) where

import Control.Concurrent

withLock :: MVar () -> IO a -> IO a
withLock lock act = do
  takeMVar lock
  answer <- act
  putMVar lock ()
  return answer

-- ! sometimes uncaught
main :: IO ()
main = do
  lock <- newMVar ()
  owner <- forkIO (withLock lock (putStrLn "the owner has the lock"))
  killThread owner
  withLock lock (putStrLn "main has the lock")
