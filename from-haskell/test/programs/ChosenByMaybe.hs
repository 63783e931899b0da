module Main (main) where

import Control.Concurrent

-- Which action runs is chosen by a pattern on what is in a cell, and handed to a function.
twice :: IO () -> IO ()
twice act = act >> act

main :: IO ()
main = do
  cell <- newMVar (Just (3 :: Int))
  known <- readMVar cell
  twice (maybe (putStrLn "none") print known)
