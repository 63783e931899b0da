module Main (main) where

import Control.Concurrent
import Control.Monad

-- Each of two threads adds what it finds; which sums can come out.
main :: IO ()
main = do
  v <- newMVar (1 :: Int)
  done <- newEmptyMVar
  forM_ [2, 3] $ \k -> forkIO $ do
    n <- readMVar v
    modifyMVar_ v (return . (+ (n * k)))
    putMVar done ()
  replicateM_ 2 (takeMVar done)
  readMVar v >>= print
