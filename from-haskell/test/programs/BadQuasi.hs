{-# LANGUAGE QuasiQuotes #-}

module Main (main) where


main :: IO ()
main = putStrLn "x"
