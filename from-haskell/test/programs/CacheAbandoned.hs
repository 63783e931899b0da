module Main (main) where

import Control.Concurrent
import Control.Exception

-- A mistake: who computes is killed, and the promise it left behind is never kept.
main :: IO ()
main = do
  cache <- newMVar Nothing
  t <- forkIO $ do
    box <- newEmptyMVar
    first <- modifyMVar cache (\e -> return (maybe (Just box) Just e, maybe True (const False) e))
    if first then putMVar box (3 :: Int) else return ()
  killThread t
  e <- readMVar cache
  case e of
    Nothing -> putStrLn "nothing"
    Just box -> do
      r <- try (readMVar box)
      putStrLn (case r of Left BlockedIndefinitelyOnMVar -> "abandoned"; Right n -> show n)
