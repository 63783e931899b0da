module Main (main) where

import Control.Concurrent

newtype Lock = Lock (MVar ())

newLock :: IO Lock
newLock = Lock <$> newMVar ()

withLock :: Lock -> IO a -> IO a
withLock (Lock m) act = withMVar m (const act)

-- A lock that is held by `withMVar` comes back from an owner that is killed.
main :: IO ()
main = do
  lock <- newLock
  t <- forkIO (withLock lock (putStrLn "inside"))
  killThread t
  withLock lock (putStrLn "main")
