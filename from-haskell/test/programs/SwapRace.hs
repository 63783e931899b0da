module Main (main) where

import Control.Concurrent
import Control.Monad

main :: IO ()
main = do
  cell <- newMVar 'x'
  done <- newEmptyMVar
  forM_ ['p', 'q'] $ \c -> forkIO (swapMVar cell c >> putMVar done ())
  early <- readMVar cell
  replicateM_ 2 (takeMVar done)
  late <- readMVar cell
  putStrLn [early, late]
