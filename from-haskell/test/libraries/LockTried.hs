-- | Library: concurrent-extra. Two threads try a lock: one of them or both get it.
module Main (main) where

import Control.Concurrent
import qualified Control.Concurrent.Lock as Lock

main :: IO ()
main = do
  lock <- Lock.new
  answer <- newEmptyMVar
  _ <- forkIO (Lock.tryWith lock (return ()) >>= putMVar answer)
  mine <- Lock.tryWith lock (return ())
  other <- takeMVar answer
  free <- Lock.tryAcquire lock
  print (maybe 'n' (const 'y') mine, maybe 'n' (const 'y') other, free)
