module Main (main) where

import Control.Concurrent
import Control.Exception
import System.Timeout

-- A mistake: a handler for everything inside of a time limit takes its exception.
main :: IO ()
main = do
  r <- timeout 1000 (threadDelay 100000 `catch` \e -> putStr (const "swallowed " (e :: SomeException)))
  putStrLn (maybe "late" (const "done") r)
