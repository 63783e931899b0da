module Main (main) where

import Control.Concurrent
import Control.Exception

-- A bracket in a thread that is killed: before it, in it, or behind it.
main :: IO ()
main = do
  done <- newEmptyMVar
  t <- forkIO (bracket (putStr "a" >> return 3) (\n -> putStr (show (n :: Int))) (\_ -> putStr "u") `finally` putMVar done ())
  killThread t
  takeMVar done
  putStrLn "."
