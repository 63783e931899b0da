-- | Library: SafeSemaphore. Who waits for two units is killed while they come.
module Main (main) where

import Control.Concurrent
import qualified Control.Concurrent.MSemN as Semaphore

main :: IO ()
main = do
  semaphore <- Semaphore.new (0 :: Int)
  waiter <- forkIO (Semaphore.wait semaphore 2)
  done <- newEmptyMVar
  _ <- forkIO (Semaphore.signal semaphore 2 >> putMVar done ())
  killThread waiter
  takeMVar done
  Semaphore.signal semaphore 2
  Semaphore.wait semaphore 2
  putStrLn "the units are there"
