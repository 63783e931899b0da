-- Cells of actions and of functions: which of them is run, or called, is known only by a run.
module Main (main) where

import Control.Concurrent
import Control.Monad (join)

main :: IO ()
main = do
  next <- newMVar (putStr "a")
  change <- newMVar (+ (1 :: Int))
  done <- newEmptyMVar
  _ <- forkIO $ do
    join (takeMVar next)
    putMVar next (putStr "b" >> putStr "c")
    modifyMVar_ change (\_ -> return (* 2))
    putMVar done ()
  f <- readMVar change
  print (f 5)
  takeMVar done
  join (takeMVar next)
