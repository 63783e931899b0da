module Main (main) where

import Control.Concurrent
import Control.Exception

-- Haskell puts the division into the cell, and the reader has the exception; a script would throw here.
main :: IO ()
main = do
  n <- newMVar (0 :: Int) >>= readMVar
  m <- newEmptyMVar
  putMVar m (10 `div` n)
  putStrLn "put"
  r <- try (takeMVar m >>= print)
  putStrLn (either (\e -> show (e :: ArithException)) (const "fine") r)
