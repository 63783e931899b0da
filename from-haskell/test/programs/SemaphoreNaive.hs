module Main (main) where

import Control.Concurrent

-- A mistake: a waiter that is killed keeps its place in the queue, and a unit is lost with it.
newtype Semaphore = Semaphore (MVar (Int, [MVar ()]))

wait, signal :: Semaphore -> IO ()
wait (Semaphore v) = do
  (n, queue) <- takeMVar v
  if n > 0
    then putMVar v (n - 1, queue)
    else do
      gate <- newEmptyMVar
      putMVar v (0, queue ++ [gate])
      takeMVar gate
signal (Semaphore v) = do
  (n, queue) <- takeMVar v
  case queue of
    [] -> putMVar v (n + 1, [])
    gate : rest -> do
      putMVar v (0, rest)
      putMVar gate ()

main :: IO ()
main = do
  s <- Semaphore <$> newMVar (0, [])
  t <- forkIO (wait s)
  done <- newEmptyMVar
  _ <- forkIO (signal s >> putMVar done ())
  killThread t
  takeMVar done
  signal s
  wait s
  putStrLn "one unit"
