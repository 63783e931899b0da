module Main (main) where

import Control.Concurrent

-- Sums, lengths and maps of a list that only a run knows can't throw and end: nothing of this is refused.
total :: [Int] -> Int
total [] = 0
total (x : xs) = x + total xs

main :: IO ()
main = do
  cell <- newMVar [1, 2, 3]
  _ <- forkIO (modifyMVar_ cell (return . map (* 2)))
  xs <- readMVar cell
  out <- newMVar (total xs)
  modifyMVar_ out (return . (+ length xs))
  readMVar out >>= print
