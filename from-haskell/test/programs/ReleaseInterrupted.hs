module Main (main) where

import Control.Concurrent
import Control.Exception

-- A mistake: a release that waits under `mask_` can be interrupted, and then the state says for ever that it is held.
data Lock = Lock {held :: MVar Bool, free :: MVar ()}

acquire, release :: Lock -> IO ()
acquire l = mask_ (takeMVar (free l) >> modifyMVar_ (held l) (const (return True)))
release l = mask_ (modifyMVar_ (held l) (const (return False)) >> putMVar (free l) ())

main :: IO ()
main = do
  l <- Lock <$> newMVar False <*> newMVar ()
  t <- forkIO (bracket_ (acquire l) (release l) (return ()))
  busy <- takeMVar (held l)
  _ <- forkIO (putMVar (held l) busy)
  killThread t
  takeMVar (free l)
  putStrLn "free"
