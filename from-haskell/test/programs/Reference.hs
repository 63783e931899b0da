module Main (main) where

import Control.Concurrent
import Data.IORef

-- Two threads that change an IORef in two steps.
main :: IO ()
main = do
  r <- newIORef (0 :: Int)
  done <- newEmptyMVar
  _ <- forkIO (modifyIORef' r (+ 1) >> putMVar done ())
  modifyIORef' r (+ 1)
  takeMVar done
  readIORef r >>= print
