module Main (main) where

import Control.Concurrent

data Light = Red | Green | Blue deriving (Bounded, Enum, Eq, Ord, Show)

next :: Light -> Light
next l = if l == maxBound then minBound else succ l

main :: IO ()
main = do
  l <- newMVar Green
  done <- newEmptyMVar
  _ <- forkIO (swapMVar l Blue >> putMVar done ())
  now <- readMVar l
  takeMVar done
  print now
  print (now < Blue, now == Red)
  print (map fromEnum [minBound .. maxBound :: Light])
  print (next Red)
