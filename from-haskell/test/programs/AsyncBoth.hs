module Main (main) where

import Control.Concurrent.Async

main :: IO ()
main = do
  (x, y) <- concurrently (putStr "a" >> return 1) (putStr "b" >> return (2 :: Int))
  print (x + y)
