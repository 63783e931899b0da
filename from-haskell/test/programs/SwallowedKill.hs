module Main (main) where

import Control.Concurrent
import Control.Exception

-- A mistake: a handler for everything swallows the kill, and the thread goes on.
main :: IO ()
main = do
  done <- newEmptyMVar
  t <- mask_ $ forkIOWithUnmask $ \unmask -> do
    unmask (putStr "w") `catch` \e -> putStr (const "s" (e :: SomeException))
    putStr "on"
    putMVar done ()
  killThread t
  takeMVar done
  putStrLn "."
