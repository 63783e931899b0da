module Main (main) where

import Control.Concurrent
import Control.Exception

-- An exception that a child throws at main comes before, in or behind what main does.
main :: IO ()
main = do
  t <- myThreadId
  _ <- forkIO (throwTo t (ErrorCall "child"))
  putStr "a"
  putStrLn "b"
