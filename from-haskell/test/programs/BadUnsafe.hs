module Main (main) where

import Control.Concurrent
import System.IO.Unsafe

counter :: MVar Int
counter = unsafePerformIO (newMVar 0)
{-# NOINLINE counter #-}

main :: IO ()
main = readMVar counter >>= print
