-- | Library: SafeSemaphore. Its documentation says that `signal` isn't interrupted; it stands under a mask that lets it be.
-- A mistake: the unit is lost where the thread is killed while `signal` waits.
module Main (main) where

import Control.Concurrent
import Control.Exception
import Control.Monad
import qualified Control.Concurrent.MSemN2 as Semaphore

main :: IO ()
main = do
  semaphore <- Semaphore.new (1 :: Int)
  owner <- forkIO (bracket_ (Semaphore.wait semaphore 1) (Semaphore.signal semaphore 1) (return ()))
  _ <- forkIO (void (Semaphore.peekAvail semaphore))
  killThread owner
  Semaphore.wait semaphore 1
  putStrLn "a unit is there"
