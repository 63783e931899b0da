module Main (main) where

import Control.Concurrent
import Control.Exception

-- A mistake: the kill may come before the `finally` stands, and main waits for ever.
main :: IO ()
main = do
  done <- newEmptyMVar
  t <- forkIO (putStr "w" `finally` putMVar done ())
  killThread t
  takeMVar done
  putStrLn "."
