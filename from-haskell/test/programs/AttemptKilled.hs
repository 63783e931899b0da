module Main (main) where

import Control.Concurrent
import Control.Exception

-- What `try` tells of an action that is killed before, in or behind it.
main :: IO ()
main = do
  done <- newEmptyMVar
  t <- mask_ $ forkIOWithUnmask $ \unmask -> do
    r <- try (unmask (putStr "w"))
    putMVar done (case r of Left ThreadKilled -> "killed"; Left _ -> "other"; Right () -> "ended")
  killThread t
  takeMVar done >>= putStrLn
