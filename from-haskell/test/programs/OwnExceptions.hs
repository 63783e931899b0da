module Main (main) where

import Control.Concurrent
import Control.Exception

data Stop = Stop | Halt deriving (Eq, Show)

instance Exception Stop

main :: IO ()
main = do
  t <- myThreadId
  _ <- forkIO (throwTo t Stop)
  r <- try (threadDelay 1000)
  putStrLn $ case r of
    Left Stop -> "stopped"
    Left Halt -> "halted"
    Right () -> "slept"
