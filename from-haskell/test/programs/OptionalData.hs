module Main (main) where

import Control.Concurrent

-- A type of one constructor without fields and others with some is a Maybe in the script.
data Job = Stop | Run Int | Print String

worker :: MVar Job -> MVar () -> IO ()
worker box done = do
  job <- takeMVar box
  case job of
    Stop -> putMVar done ()
    Run n -> print (n * 2) >> worker box done
    Print s -> putStrLn s >> worker box done

main :: IO ()
main = do
  box <- newEmptyMVar
  done <- newEmptyMVar
  _ <- forkIO (worker box done)
  mapM_ (putMVar box) [Run 4, Print "p", Stop]
  takeMVar done
