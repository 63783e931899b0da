-- Jobs with names, kept in a list: two workers take all that there are, and one of them adds another.
module Main (main) where

import Control.Concurrent
import Control.Monad (forM_, when)

data Job = Job {jobName :: String, jobAction :: IO ()}

main :: IO ()
main = do
  jobs <- newMVar []
  count <- newMVar (0 :: Int)
  let add job = modifyMVar_ jobs (return . (job :))
  add (Job "count" (modifyMVar_ count (return . (+ 1))))
  done <- newEmptyMVar
  forM_ [1, 2 :: Int] $ \n -> forkIO $ do
    mine <- swapMVar jobs []
    mapM_ jobAction mine
    when (n == 1) $ add (Job "print" (putStrLn "late"))
    putMVar done ()
  takeMVar done
  takeMVar done
  others <- takeMVar jobs
  mapM_ (\job -> putStr (jobName job ++ " ") >> jobAction job) others
  readMVar count >>= print
