module Main (main) where

import Control.Concurrent
import Control.Exception

-- The program throws what a handler is for, but a script can't tell it from other texts.
main :: IO ()
main = throwIO (AssertionFailed "a") `catch` \(AssertionFailed s) -> putStrLn s
