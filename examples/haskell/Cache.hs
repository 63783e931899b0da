-- | A cache of one value: who comes first computes it, and the others wait for it. If the first one is killed, the next
-- one computes.
module Main (main) where

import Control.Concurrent
import Control.Exception

data Entry = Absent | Computing (MVar (Maybe Int))

cached :: MVar Entry -> IO Int -> IO Int
cached cache compute = mask $ \restore -> do
  found <- modifyMVar cache $ \entry -> case entry of
    Computing box -> return (entry, Left box)
    Absent -> do
      box <- newEmptyMVar
      return (Computing box, Right box)
  case found of
    Left box -> restore (readMVar box) >>= maybe (restore (cachedAgain cache compute)) return
    Right box -> do
      value <- restore compute `onException` uninterruptibleMask_ (modifyMVar_ cache (const (return Absent)) >> putMVar box Nothing)
      putMVar box (Just value)
      return value

-- A second try, of one more thread that computes for itself.
cachedAgain :: MVar Entry -> IO Int -> IO Int
cachedAgain _ compute = compute

-- ! never deadlock
-- ! never stuck
main :: IO ()
main = do
  cache <- newMVar Absent
  first <- forkIO (cached cache (putStrLn "computes" >> return 7) >>= print)
  killThread first
  value <- cached cache (return 7)
  print value
