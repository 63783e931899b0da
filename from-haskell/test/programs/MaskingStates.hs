module Main (main) where

import Control.Concurrent
import Control.Exception

main :: IO ()
main = do
  getMaskingState >>= print
  mask_ (getMaskingState >>= print)
  mask $ \restore -> restore getMaskingState >>= print
  uninterruptibleMask_ (getMaskingState >>= print)
  done <- newEmptyMVar
  _ <- mask_ (forkIO (getMaskingState >>= putMVar done))
  takeMVar done >>= print
