{-# LANGUAGE CPP #-}

module Main (main) where


#include "/etc/hostname"

main :: IO ()
main = putStrLn "x"
