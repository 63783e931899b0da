module Main (main) where

import Control.Concurrent

-- A mistake: the counter is read and put in two steps, and a kill between the two empties it for ever.
main :: IO ()
main = do
  counter <- newMVar (0 :: Int)
  t <- forkIO $ do
    n <- takeMVar counter
    putMVar counter (n + 1)
  killThread t
  n <- takeMVar counter
  print n
