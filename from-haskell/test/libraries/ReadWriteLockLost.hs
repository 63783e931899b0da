-- | Library: concurrent-extra. A release waits for the lock's state under a mask that lets it be interrupted.
-- A mistake: the lock is lost where its owner is killed while its release waits.
module Main (main) where

import Control.Concurrent
import qualified Control.Concurrent.ReadWriteLock as Lock

main :: IO ()
main = do
  lock <- Lock.new
  first <- forkIO (Lock.withRead lock (return ()))
  second <- forkIO (Lock.withRead lock (return ()))
  killThread first
  killThread second
  Lock.acquireWrite lock
  putStrLn "ok"
