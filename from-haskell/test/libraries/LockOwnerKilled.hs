-- | Library: concurrent-extra. The owner of a lock is killed, and main takes the lock behind it.
module Main (main) where

import Control.Concurrent
import qualified Control.Concurrent.Lock as Lock

main :: IO ()
main = do
  lock <- Lock.new
  owner <- forkIO (Lock.with lock (putStrLn "owner"))
  killThread owner
  Lock.with lock (putStrLn "main")
