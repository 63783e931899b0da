-- | Library: concurrent-extra. Two threads wait for an event, one of which is killed.
module Main (main) where

import Control.Concurrent
import qualified Control.Concurrent.Event as Event

main :: IO ()
main = do
  event <- Event.new
  one <- forkIO (Event.wait event >> putStrLn "one")
  done <- newEmptyMVar
  _ <- forkIO (Event.wait event >> putStrLn "two" >> putMVar done ())
  killThread one
  Event.set event
  takeMVar done
