{-# OPTIONS_GHC -fplugin=Plugin #-}

module Main (main) where


main :: IO ()
main = putStrLn "x"
