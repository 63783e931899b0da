module Main (main) where

import Control.Concurrent

-- What `forkFinally` tells of a thread that is killed.
main :: IO ()
main = do
  done <- newEmptyMVar
  t <- forkFinally (putStr "w") (\r -> putStr (either (const "k") (const "r") r) >> putMVar done ())
  killThread t
  takeMVar done
  putStrLn "."
