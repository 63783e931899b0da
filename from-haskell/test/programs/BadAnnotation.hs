module Main (main) where


{-# ANN main "an annotation" #-}
main :: IO ()
main = putStrLn "x"
