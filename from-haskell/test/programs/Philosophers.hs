module Main (main) where

import Control.Concurrent
import Control.Monad

-- Two philosophers who take their forks the other way round.
philosopher :: String -> MVar () -> MVar () -> MVar () -> IO ()
philosopher name left right done = do
  withMVar left $ \_ -> withMVar right $ \_ -> putStrLn (name ++ " eats")
  putMVar done ()

main :: IO ()
main = do
  a <- newMVar ()
  b <- newMVar ()
  done <- newEmptyMVar
  _ <- forkIO (philosopher "one" a b done)
  _ <- forkIO (philosopher "two" b a done)
  replicateM_ 2 (takeMVar done)
  putStrLn "all fed"
