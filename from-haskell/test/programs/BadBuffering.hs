module Main (main) where

import System.IO

main :: IO ()
main = do
  hSetBuffering stdout NoBuffering
  putStrLn "a"
