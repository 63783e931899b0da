module Main (main) where

import Control.Concurrent

-- Products of Integers are checked: beyond 64 bits the script ends by a mark of its own, and never wraps.
main :: IO ()
main = do
  cell <- newMVar 3000000000
  n <- readMVar cell
  print (n * 2 - n)
  modifyMVar_ cell (\x -> return (x * x))
  readMVar cell >>= \x -> putStrLn (if x > 0 then "positive" else "negative")
