-- | Library: base, its own source. Who waits for two units of a QSemN is killed while they come.
module Main (main) where

import Control.Concurrent (forkIO, killThread, newEmptyMVar, putMVar, takeMVar)
import Control.Concurrent.QSemN

main :: IO ()
main = do
  semaphore <- newQSemN 0
  waiter <- forkIO (waitQSemN semaphore 2)
  done <- newEmptyMVar
  _ <- forkIO (signalQSemN semaphore 2 >> putMVar done ())
  killThread waiter
  takeMVar done
  signalQSemN semaphore 2
  waitQSemN semaphore 2
  putStrLn "the units are there"
