module Main (main) where

import Control.Concurrent
import Control.Monad

-- A latch of two counts: main goes on when both have come.
newtype Latch = Latch (MVar (Int, MVar ()))

newLatch :: Int -> IO Latch
newLatch n = do
  gate <- newEmptyMVar
  Latch <$> newMVar (n, gate)

arrive, await :: Latch -> IO ()
arrive (Latch v) = modifyMVar_ v $ \(n, gate) -> do
  when (n == 1) (putMVar gate ())
  return (n - 1, gate)
await (Latch v) = readMVar v >>= readMVar . snd

main :: IO ()
main = do
  latch <- newLatch 2
  _ <- forkIO (putStr "a" >> arrive latch)
  _ <- forkIO (putStr "b" >> arrive latch)
  await latch
  putStrLn "."
