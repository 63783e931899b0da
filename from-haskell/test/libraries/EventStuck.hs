-- | Library: concurrent-extra. A waiter that was killed leaves its cell in the list, and a `set` that is killed puts the list back.
-- A mistake: after both, each later `set` waits for ever.
module Main (main) where

import Control.Concurrent
import qualified Control.Concurrent.Event as Event

main :: IO ()
main = do
  event <- Event.new
  waiter <- forkIO (Event.wait event)
  setter <- forkIO (Event.set event)
  killThread waiter
  killThread setter
  Event.set event
  putStrLn "set"
