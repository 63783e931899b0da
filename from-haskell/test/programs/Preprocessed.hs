{-# LANGUAGE CPP #-}

module Main (main) where


#define GREETING "hello"

main :: IO ()
#if MIN_VERSION_base(4,0,0)
main = putStrLn GREETING
#else
main = putStrLn "old"
#endif
