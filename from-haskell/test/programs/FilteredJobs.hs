module Main (main) where

import Control.Concurrent

main :: IO ()
main = do
  jobs <- newMVar [3, 8, 5, 12 :: Int]
  _ <- forkIO (modifyMVar_ jobs (return . filter (> 4)))
  js <- readMVar jobs
  box <- newMVar (reverse (map (+ 1) js))
  readMVar box >>= print
