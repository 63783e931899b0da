module Main (main) where

import Control.Concurrent

main :: IO ()
main = do
  n <- newMVar (0 :: Int) >>= readMVar
  putStrLn ("the answer is " ++ show (10 `div` n))
