module Main (main) where

import Control.Concurrent
import Control.Monad

-- Each thread takes from the cell before it and puts into the cell behind it.
main :: IO ()
main = do
  cells <- replicateM 3 newEmptyMVar
  forM_ (zip cells (drop 1 cells)) $ \(a, b) -> forkIO (takeMVar a >>= putMVar b . (+ 1))
  putMVar (head cells) (0 :: Int)
  takeMVar (last cells) >>= print
