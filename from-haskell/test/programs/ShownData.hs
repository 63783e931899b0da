module Main (main) where

import Control.Concurrent

data Point = Point {px :: Int, py :: Int} deriving (Eq, Ord, Show)

main :: IO ()
main = do
  cell <- newMVar (Point 1 (-2))
  done <- newEmptyMVar
  _ <- forkIO (modifyMVar_ cell (\p -> return p {px = 5}) >> putMVar done ())
  p <- readMVar cell
  takeMVar done
  print p
  print (Just p, Left 3 :: Either Int ())
  print (p == Point 1 (-2), p < Point 2 0)
