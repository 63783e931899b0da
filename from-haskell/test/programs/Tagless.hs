module Main (main) where

import Control.Concurrent

class Monad m => MonadCell m where
  cell :: m (MVar Int)
  say :: String -> m ()

instance MonadCell IO where
  cell = newMVar 0
  say = putStrLn

counted :: MonadCell m => (MVar Int -> m ()) -> m (MVar Int)
counted f = do
  c <- cell
  say "made"
  f c
  return c

main :: IO ()
main = do
  c <- counted (\v -> modifyMVar_ v (pure . succ))
  done <- newEmptyMVar
  _ <- forkIO (modifyMVar_ c (pure . (* 10)) >> putMVar done ())
  modifyMVar_ c (pure . (+ 1))
  takeMVar done
  readMVar c >>= print
