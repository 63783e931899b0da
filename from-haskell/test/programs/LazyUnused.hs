module Main (main) where

import Control.Concurrent

-- What nothing uses throws nothing.
main :: IO ()
main = do
  cell <- newMVar (0 :: Int)
  n <- readMVar cell
  let q = 10 `div` n
      pair = (n + 1, q)
  print (fst pair)
  if n > 0 then print q else putStrLn "no division"
