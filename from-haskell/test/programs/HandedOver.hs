module Main (main) where

import Control.Concurrent
import Control.Exception
import Control.Monad

-- A thread that is killed while it hands a token on: the token may be with nobody.
main :: IO ()
main = do
  mine <- newMVar ()
  yours <- newEmptyMVar
  t <- forkIO (takeMVar mine >>= putMVar yours)
  killThread t
  a <- tryTakeMVar mine
  b <- tryTakeMVar yours
  putStrLn (maybe "-" (const "m") a ++ maybe "-" (const "y") b)
