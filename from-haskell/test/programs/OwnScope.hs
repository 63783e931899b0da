module Main (main) where

import Control.Concurrent
import Control.Exception

-- A scope of one's own: the child is stopped when the scope ends.
data Task a = Task ThreadId (MVar (Either SomeException a))

withTask :: IO a -> (Task a -> IO b) -> IO b
withTask act use = do
  v <- newEmptyMVar
  mask $ \restore -> do
    t <- forkIO (try (restore act) >>= putMVar v)
    let task = Task t v
    r <- restore (use task) `onException` stop task
    stop task
    return r
 where
  stop (Task t v) = uninterruptibleMask_ (killThread t >> (() <$ readMVar v))

await :: Task a -> IO a
await (Task _ v) = readMVar v >>= either throwIO return

main :: IO ()
main = do
  n <- withTask (return 3) $ \a -> withTask (return (4 :: Int)) $ \b -> (+) <$> await a <*> await b
  print n
  withTask (putStr "c") (\_ -> putStr "m")
  putStrLn "."
