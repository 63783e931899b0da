-- | Library: SafeSemaphore. A waiter is killed while a unit comes.
module Main (main) where

import Control.Concurrent
import qualified Control.Concurrent.MSem as Semaphore

main :: IO ()
main = do
  semaphore <- Semaphore.new (0 :: Int)
  waiter <- forkIO (Semaphore.wait semaphore)
  done <- newEmptyMVar
  _ <- forkIO (Semaphore.signal semaphore >> putMVar done ())
  killThread waiter
  takeMVar done
  Semaphore.signal semaphore
  Semaphore.wait semaphore
  putStrLn "a unit is there"
