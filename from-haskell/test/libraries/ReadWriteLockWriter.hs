-- | Library: concurrent-extra. A writer that waits for a reader is killed.
module Main (main) where

import Control.Concurrent
import qualified Control.Concurrent.ReadWriteLock as Lock

main :: IO ()
main = do
  lock <- Lock.new
  done <- newEmptyMVar
  Lock.acquireRead lock
  writer <- forkIO (Lock.withWrite lock (putStrLn "writer"))
  _ <- forkIO (Lock.releaseRead lock >> putMVar done ())
  killThread writer
  takeMVar done
  Lock.withWrite lock (putStrLn "main")
