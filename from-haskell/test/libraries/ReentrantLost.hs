-- | Library: concurrent-extra. A release waits for the lock's state under a mask that lets it be interrupted.
-- A mistake: the lock is lost where the owner is killed while its release waits.
module Main (main) where

import Control.Concurrent
import qualified Control.Concurrent.RLock as RLock

main :: IO ()
main = do
  lock <- RLock.new
  done <- newEmptyMVar
  owner <- forkFinally (RLock.with lock (return ())) (const (putMVar done ()))
  _ <- forkIO (RLock.tryAcquire lock >>= \got -> if got then RLock.release lock else return ())
  killThread owner
  takeMVar done
  RLock.with lock (putStrLn "main")
