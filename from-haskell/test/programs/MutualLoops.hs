module Main (main) where

import Control.Concurrent

ping, pong :: Int -> MVar Int -> IO ()
ping n v = if n == 0 then return () else modifyMVar_ v (return . (+ 1)) >> pong (n - 1) v
pong n v = if n == 0 then return () else modifyMVar_ v (return . (* 2)) >> ping (n - 1) v

main :: IO ()
main = do
  v <- newMVar 1
  done <- newEmptyMVar
  _ <- forkIO (ping 2 v >> putMVar done ())
  pong 2 v
  takeMVar done
  readMVar v >>= print
