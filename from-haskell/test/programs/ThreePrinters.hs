module Main (main) where

import Control.Concurrent
import Control.Monad

main :: IO ()
main = do
  done <- newEmptyMVar
  forM_ ["a", "b"] $ \s -> forkIO (putStr s >> putMVar done ())
  putStr "c"
  replicateM_ 2 (takeMVar done)
  putStrLn "."
