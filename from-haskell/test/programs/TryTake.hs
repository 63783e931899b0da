module Main (main) where

import Control.Concurrent

main :: IO ()
main = do
  v <- newEmptyMVar
  _ <- forkIO (putMVar v (1 :: Int))
  a <- tryTakeMVar v
  b <- tryPutMVar v 2
  c <- tryTakeMVar v
  print (a, b, c)
