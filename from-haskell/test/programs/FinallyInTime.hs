module Main (main) where

import Control.Concurrent
import Control.Exception

-- Forked under a mask, it always tells its end.
main :: IO ()
main = do
  done <- newEmptyMVar
  t <- mask_ (forkIOWithUnmask (\unmask -> unmask (putStr "w") `finally` putMVar done ()))
  killThread t
  takeMVar done
  putStrLn "."
