module Main (main) where

import Control.Concurrent
import Control.Exception
import Control.Monad

-- Two workers over one list of jobs; one job fails, and costs no worker.
worker :: MVar [Int] -> MVar Int -> IO ()
worker jobs total = do
  job <- modifyMVar jobs $ \js -> return $ case js of
    [] -> ([], Nothing)
    j : rest -> (rest, Just j)
  case job of
    Nothing -> return ()
    Just j -> do
      r <- try (evaluate (12 `div` j))
      case r of
        Left e -> putStrLn (show (e :: ArithException))
        Right n -> modifyMVar_ total (return . (+ n))
      worker jobs total

main :: IO ()
main = do
  jobs <- newMVar [3, 0]
  total <- newMVar 0
  done <- newEmptyMVar
  replicateM_ 2 (forkIO (worker jobs total `finally` putMVar done ()))
  replicateM_ 2 (takeMVar done)
  readMVar total >>= print
