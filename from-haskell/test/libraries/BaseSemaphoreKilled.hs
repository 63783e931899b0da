-- | Library: base, its own source. A waiter of a QSem is killed while a unit comes.
module Main (main) where

import Control.Concurrent (forkIO, killThread, newEmptyMVar, putMVar, takeMVar)
import Control.Concurrent.QSem

main :: IO ()
main = do
  semaphore <- newQSem 0
  waiter <- forkIO (waitQSem semaphore)
  done <- newEmptyMVar
  _ <- forkIO (signalQSem semaphore >> putMVar done ())
  killThread waiter
  takeMVar done
  signalQSem semaphore
  waitQSem semaphore
  putStrLn "a unit is there"
