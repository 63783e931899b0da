module Main (main) where

import Control.Concurrent
import System.Timeout

-- The inner limit's exception isn't the outer one's.
main :: IO ()
main = do
  r <- timeout 2000000 (timeout 1000 (threadDelay 3000000))
  putStrLn $ case r of
    Nothing -> "outer"
    Just Nothing -> "inner"
    Just (Just ()) -> "slept"
