module Main (main) where

import Control.Concurrent
import Control.Exception
import Control.Monad

go :: (IO () -> IO ()) -> MVar Int -> IO ()
go restore m = do
  x <- takeMVar m
  restore (print x)
  unless (x > 3) (putMVar m (x + 1) >> go restore m)

main :: IO ()
main = do
  m <- newMVar 0
  mask (\restore -> go restore m)
