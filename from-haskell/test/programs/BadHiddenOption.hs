{-# LANGUAGE CPP #-}
#define NOTHING
#if 1
{-# OPTIONS_GHC -F -pgmF /bin/false #-}
#endif

module Main (main) where


main :: IO ()
main = putStrLn "x"
