module Main (main) where

import Control.Concurrent

main :: IO ()
main = do
  v <- newMVar "abc"
  s <- readMVar v
  putStrLn (reverse s)
