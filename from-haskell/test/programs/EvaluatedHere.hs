module Main (main) where

import Control.Concurrent
import Control.Exception

-- What is evaluated before it is kept, or by a strict field, is evaluated in the script too.
data Both = Both !Int Int

main :: IO ()
main = do
  cell <- newMVar 4
  n <- readMVar cell
  q <- evaluate (20 `div` n)
  box <- newMVar q
  let Both a b = Both (q `mod` 3) 7
  c <- newMVar $! 9 `div` n
  r <- try (evaluate (1 `div` (n - 4)))
  x <- readMVar box
  y <- readMVar c
  print (x + a + b + y)
  putStrLn (either (\e -> show (e :: ArithException)) show r)
