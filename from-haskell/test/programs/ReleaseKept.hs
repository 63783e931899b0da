module Main (main) where

import Control.Concurrent
import Control.Exception

-- The same with `uninterruptibleMask_`, round the acquire too: the lock always comes back.
data Lock = Lock {held :: MVar Bool, free :: MVar ()}

acquire, release :: Lock -> IO ()
acquire l = do
  takeMVar (free l)
  uninterruptibleMask_ (modifyMVar_ (held l) (const (return True)))
release l = uninterruptibleMask_ $ do
  modifyMVar_ (held l) (const (return False))
  putMVar (free l) ()

main :: IO ()
main = do
  l <- Lock <$> newMVar False <*> newMVar ()
  t <- forkIO (bracket_ (acquire l) (release l) (return ()))
  busy <- takeMVar (held l)
  _ <- forkIO (putMVar (held l) busy)
  killThread t
  takeMVar (free l)
  putStrLn "free"
