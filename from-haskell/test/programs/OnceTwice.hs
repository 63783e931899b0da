module Main (main) where

import Control.Concurrent
import Control.Monad

-- A mistake: two threads may both find nothing, and make it twice.
get :: MVar (Maybe Int) -> IO Int -> IO Int
get cell make = do
  known <- readMVar cell
  case known of
    Just x -> return x
    Nothing -> do
      x <- make
      _ <- swapMVar cell (Just x)
      return x

main :: IO ()
main = do
  cell <- newMVar Nothing
  done <- newEmptyMVar
  replicateM_ 2 (forkIO (get cell (putStr "m" >> return 3) >> putMVar done ()))
  replicateM_ 2 (takeMVar done)
  putStrLn "."
