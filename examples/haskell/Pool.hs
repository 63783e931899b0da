-- | Two workers over one list of jobs. A job that throws costs no worker, and main waits for both.
module Main (main) where

import Control.Concurrent
import Control.Exception
import Control.Monad

nextJob :: MVar [Int] -> IO (Maybe Int)
nextJob jobs = modifyMVar jobs $ \todo -> return $ case todo of
  [] -> ([], Nothing)
  job : rest -> (rest, Just job)

work :: MVar Int -> Int -> IO ()
work total job = do
  share <- evaluate (60 `div` job)
  modifyMVar_ total (return . (+ share))

worker :: MVar [Int] -> MVar Int -> IO ()
worker jobs total = do
  next <- nextJob jobs
  case next of
    Nothing -> return ()
    Just job -> do
      work total job `catch` \e -> putStrLn (case e of DivideByZero -> "a job divides by zero"; _ -> "a job fails")
      worker jobs total

-- ! always done
-- ! always output has "total 90"
main :: IO ()
main = do
  jobs <- newMVar [1, 0, 2]
  total <- newMVar 0
  done <- newEmptyMVar
  replicateM_ 2 (forkIO (worker jobs total `finally` putMVar done ()))
  replicateM_ 2 (takeMVar done)
  sumOfAll <- readMVar total
  putStrLn ("total " ++ show sumOfAll)
