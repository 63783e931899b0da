module Main (main) where

import Control.Concurrent
import Control.Exception

-- Under a mask a thread is killed only where it waits.
main :: IO ()
main = do
  gate <- newEmptyMVar
  opened <- newMVar False
  done <- newEmptyMVar
  t <- mask_ (forkIO ((takeMVar gate >> modifyMVar_ opened (const (return True))) `finally` putMVar done ()))
  _ <- forkIO (putMVar gate ())
  killThread t
  takeMVar done
  readMVar opened >>= print
