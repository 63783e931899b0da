{-# OPTIONS_GHC -F -pgmF /bin/false #-}

module Main (main) where


main :: IO ()
main = putStrLn "x"
