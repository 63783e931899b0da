module Main (main) where

import Control.Concurrent
import Control.Monad

-- Two writers of two messages each: their orders stay, and mix.
main :: IO ()
main = do
  box <- newEmptyMVar
  forM_ ["a", "b"] $ \s -> forkIO (putMVar box (s ++ "1") >> putMVar box (s ++ "2"))
  messages <- replicateM 4 (takeMVar box)
  putStrLn (concat messages)
