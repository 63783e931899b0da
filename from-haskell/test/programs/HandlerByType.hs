module Main (main) where

import Control.Concurrent
import Control.Exception

-- A handler of ErrorCall lets the kill pass.
main :: IO ()
main = do
  done <- newEmptyMVar
  t <- mask_ $ forkIOWithUnmask $ \unmask ->
    (unmask (putStr "w" >> throwIO (ErrorCall "bad")) `catch` \(ErrorCall s) -> putStr s) `finally` putMVar done ()
  killThread t
  takeMVar done
  putStrLn "."
