module Main (main) where

import Control.Concurrent

-- Two threads print, in either order.
main :: IO ()
main = do
  done <- newEmptyMVar
  _ <- forkIO (putStrLn "a" >> putMVar done ())
  putStrLn "b"
  takeMVar done
