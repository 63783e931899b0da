module Main (main) where

import Control.Concurrent
import Control.Exception
import System.Timeout

-- A time limit round a wait, and what its cleanup leaves.
main :: IO ()
main = do
  r <- timeout 1000 (threadDelay 100000 `finally` putStr "c")
  s <- timeout 100000 (return (7 :: Int))
  putStrLn (maybe "none" (const "some") r ++ maybe "none" show s)
