-- | A semaphore of one unit, as the queue of its waiters. A waiter that is killed while a signal comes gives its unit back.
module Main (main) where

import Control.Concurrent
import Control.Exception

newtype Semaphore = Semaphore (MVar (Int, [MVar ()]))

newSemaphore :: Int -> IO Semaphore
newSemaphore n = Semaphore <$> newMVar (n, [])

wait, signal :: Semaphore -> IO ()
wait s@(Semaphore cell) = mask_ $ do
  (units, queue) <- takeMVar cell
  if units > 0
    then putMVar cell (units - 1, queue)
    else do
      gate <- newEmptyMVar
      putMVar cell (units, queue ++ [gate])
      takeMVar gate `onException` uninterruptibleMask_ (leave s gate)
signal (Semaphore cell) = uninterruptibleMask_ (takeMVar cell >>= given >>= putMVar cell)

-- A waiter that was killed marks its gate as full; one that had its unit already hands it on.
leave :: Semaphore -> MVar () -> IO ()
leave (Semaphore cell) gate = do
  state <- takeMVar cell
  fresh <- tryPutMVar gate ()
  if fresh then putMVar cell state else given state >>= putMVar cell

given :: (Int, [MVar ()]) -> IO (Int, [MVar ()])
given (units, queue) = case queue of
  [] -> return (units + 1, [])
  gate : rest -> do
    waits <- tryPutMVar gate ()
    if waits then return (units, rest) else given (units, rest)

-- ! always done and output "one unit\n"
main :: IO ()
main = do
  s <- newSemaphore 0
  waiter <- forkIO (wait s)
  told <- newEmptyMVar
  _ <- forkIO (signal s >> putMVar told ())
  killThread waiter
  takeMVar told
  signal s
  wait s
  putStrLn "one unit"
