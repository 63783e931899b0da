-- | A lock whose owner is killed. It comes back: `withLock` releases it whatever ends the owner.
module Main (main) where

import Control.Concurrent
import Control.Exception

newtype Lock = Lock (MVar ())

newLock :: IO Lock
newLock = Lock <$> newMVar ()

withLock :: Lock -> IO a -> IO a
withLock (Lock cell) = bracket_ (takeMVar cell) (putMVar cell ())

-- ! never deadlock
-- ! never stuck
-- ! always done
main :: IO ()
main = do
  lock <- newLock
  owner <- forkIO (withLock lock (putStrLn "the owner has the lock"))
  killThread owner
  withLock lock (putStrLn "main has the lock")
