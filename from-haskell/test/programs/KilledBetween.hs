module Main (main) where

import Control.Concurrent

-- How far a thread comes that is killed.
main :: IO ()
main = do
  t <- forkIO (putStr "a" >> putStr "b" >> putStr "c")
  killThread t
  putStrLn "."
