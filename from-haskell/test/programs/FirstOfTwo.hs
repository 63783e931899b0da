module Main (main) where

import Control.Concurrent
import Control.Exception

-- The first of two answers; the loser is killed.
firstOf :: IO a -> IO a -> IO a
firstOf a b = do
  box <- newEmptyMVar
  mask $ \restore -> do
    t <- forkIO (restore a >>= putMVar box)
    u <- forkIO (restore b >>= putMVar box)
    r <- restore (takeMVar box) `onException` (killThread t >> killThread u)
    killThread t
    killThread u
    return r

main :: IO ()
main = firstOf (putStr "a" >> return 1) (putStr "b" >> return (2 :: Int)) >>= print
