module Main (main) where

import Control.Concurrent

choose :: Bool -> Int -> IO ()
choose b x = putStrLn "choose" >> if b then print x else putStrLn "unused"

main :: IO ()
main = do
  n <- newMVar (0 :: Int) >>= readMVar
  choose (n > 0) (10 `div` n)
