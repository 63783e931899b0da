module Main (main) where

import Control.Concurrent
import Control.Monad

-- A loop of three rounds, killed in any of them.
main :: IO ()
main = do
  rounds <- newMVar (0 :: Int)
  t <- forkIO (replicateM_ 3 (modifyMVar_ rounds (return . (+ 1))))
  killThread t
  readMVar rounds >>= print
