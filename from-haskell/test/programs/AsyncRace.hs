module Main (main) where

import Control.Concurrent.Async

-- The first answer of two; the other one is stopped.
main :: IO ()
main = do
  r <- race (putStr "a" >> return 1) (putStr "b" >> return (2 :: Int))
  putStrLn (either (show :: Int -> String) show r)
