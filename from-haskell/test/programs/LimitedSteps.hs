module Main (main) where

import Control.Concurrent
import System.Timeout

-- How far an action comes within its time.
main :: IO ()
main = do
  r <- timeout 1000 (putStr "a" >> threadDelay 500 >> putStr "b")
  putStrLn (maybe "." (const "!") r)
