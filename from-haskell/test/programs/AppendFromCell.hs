module Main (main) where

import Control.Concurrent
import Control.Monad

main :: IO ()
main = do
  log' <- newMVar []
  done <- newEmptyMVar
  forM_ [1, 2 :: Int] $ \n -> forkIO (modifyMVar_ log' (\l -> return (l ++ [n])) >> putMVar done ())
  replicateM_ 2 (takeMVar done)
  l <- readMVar log'
  print (length l)
  print l
