-- | Library: concurrent-extra. A lock that its owner may take again, beside another thread.
module Main (main) where

import Control.Concurrent
import qualified Control.Concurrent.RLock as RLock

main :: IO ()
main = do
  lock <- RLock.new
  done <- newEmptyMVar
  _ <- forkIO (RLock.with lock (putStrLn "child") >> putMVar done ())
  RLock.with lock (RLock.with lock (putStrLn "main, twice"))
  takeMVar done
