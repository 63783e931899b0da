module Main (main) where

import Control.Concurrent
import Data.IORef

main :: IO ()
main = do
  r <- newIORef (0 :: Int)
  done <- newEmptyMVar
  _ <- forkIO (atomicModifyIORef' r (\n -> (n + 1, ())) >> putMVar done ())
  old <- atomicModifyIORef' r (\n -> (n + 10, n))
  takeMVar done
  new <- readIORef r
  print (old, new)
