module Main (main) where

import Control.Concurrent
import Control.Exception

-- A semaphore of one unit as a full cell: a killed waiter leaves nothing behind.
newtype Semaphore = Semaphore (MVar ())

with :: Semaphore -> IO a -> IO a
with (Semaphore v) = bracket_ (takeMVar v) (putMVar v ())

main :: IO ()
main = do
  s <- Semaphore <$> newMVar ()
  t <- forkIO (with s (putStr "t"))
  killThread t
  with s (putStrLn "m")
