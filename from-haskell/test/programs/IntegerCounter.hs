module Main (main) where

import Control.Concurrent

-- A number without a type is an Integer. Counting never leaves 64 bits.
main :: IO ()
main = do
  cell <- newMVar 0
  done <- newEmptyMVar
  _ <- forkIO (modifyMVar_ cell (return . (+ 1)) >> putMVar done ())
  modifyMVar_ cell (return . subtract 2)
  n <- readMVar cell
  takeMVar done
  print n
