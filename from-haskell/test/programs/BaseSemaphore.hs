module Main (main) where

import Control.Concurrent
import Control.Concurrent.QSem

-- The semaphore of base loses no unit where a waiter is killed while a signal comes.
main :: IO ()
main = do
  s <- newQSem 0
  t <- forkIO (waitQSem s)
  done <- newEmptyMVar
  _ <- forkIO (signalQSem s >> putMVar done ())
  killThread t
  takeMVar done
  signalQSem s
  waitQSem s
  putStrLn "one unit"
