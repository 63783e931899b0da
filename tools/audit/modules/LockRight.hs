-- | A lock that knows who holds it. A release takes the name away first, and nothing interrupts it there.
module LockRight (Lock, new, acquire, release, with, holder) where

import Control.Concurrent.MVar
import Control.Exception

data Lock = Lock (MVar ()) (MVar Int)

new :: IO Lock
new = Lock <$> newMVar () <*> newMVar 0

acquire :: Lock -> IO ()
acquire (Lock cell name) = mask_ $ do
  takeMVar cell
  uninterruptibleMask_ (modifyMVar_ name (return . const 1))

release :: Lock -> IO ()
release (Lock cell name) = uninterruptibleMask_ $ do
  modifyMVar_ name (return . const 0)
  putMVar cell ()

with :: Lock -> IO a -> IO a
with lock = bracket_ (acquire lock) (release lock)

holder :: Lock -> IO Int
holder (Lock _ name) = modifyMVar name (\n -> return (n, n))
