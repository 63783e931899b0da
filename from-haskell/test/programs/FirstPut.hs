module Main (main) where

import Control.Concurrent
import Control.Monad

-- Who of three puts first.
main :: IO ()
main = do
  box <- newEmptyMVar
  forM_ [1, 2, 3 :: Int] (forkIO . putMVar box)
  takeMVar box >>= print
