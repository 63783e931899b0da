-- A stack of actions that undo what was done: a kill between the step and its entry loses the undoing.
-- A mistake: no mask stands round the step and its entry.
module Main (main) where

import Control.Concurrent
import Control.Exception (finally)

main :: IO ()
main = do
  undo <- newMVar [] :: IO (MVar [IO ()])
  held <- newMVar (0 :: Int)
  worker <- forkIO $ do
    modifyMVar_ held (return . (+ 1))
    modifyMVar_ undo (return . (modifyMVar_ held (return . subtract 1) :))
  killThread worker
  (takeMVar undo >>= sequence_) `finally` (readMVar held >>= print)
