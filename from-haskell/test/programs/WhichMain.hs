module Main (main, question, other) where

import Control.Concurrent

-- A module asks several questions, each by an action of its own.
question, other, main :: IO ()
question = newMVar 'q' >>= readMVar >>= \c -> putStrLn [c]
other = putStrLn "other"
main = putStrLn "main"
