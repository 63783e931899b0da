-- A kill comes before a swap or behind it, and never between its two halves.
module Main (main) where

import Control.Concurrent
import Control.Monad (void)

main :: IO ()
main = do
  cell <- newMVar "old"
  worker <- forkIO (void (swapMVar cell "new"))
  killThread worker
  takeMVar cell >>= putStrLn
