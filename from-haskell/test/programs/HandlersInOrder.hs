module Main (main) where

import Control.Concurrent
import Control.Exception

-- Which handler takes a kill, an error and a division.
attempt :: IO () -> IO ()
attempt act = act `catches`
  [ Handler (\e -> putStr (case e of { DivideByZero -> "z"; _ -> "a" }))
  , Handler (\(ErrorCall s) -> putStr s)
  , Handler (\e -> putStr (show (e :: SomeException)))
  ]

main :: IO ()
main = do
  t <- myThreadId
  attempt (throwIO DivideByZero)
  attempt (throwIO (ErrorCall "e"))
  attempt (throwTo t UserInterrupt)
  putStrLn "."
