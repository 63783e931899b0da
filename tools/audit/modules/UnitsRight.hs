-- | Units that threads take and give back. One place gives the unit back.
module UnitsRight (Units, new, obtain, release, using, available) where

import Control.Concurrent.MVar
import Control.Exception
import Control.Monad (when)

data Units = Units (MVar Int) (MVar ())

new :: Int -> IO Units
new n = do
  gate <- if n > 0 then newMVar () else newEmptyMVar
  count <- newMVar n
  return (Units count gate)

obtain :: Units -> IO ()
obtain (Units count gate) = mask_ $ do
  takeMVar gate
  uninterruptibleMask_ $ do
    n <- takeMVar count
    putMVar count (n - 1)
    when (n > 1) (putMVar gate ())

release :: Units -> IO ()
release (Units count gate) = uninterruptibleMask_ $ do
  n <- takeMVar count
  putMVar count (n + 1)
  when (n == 0) (putMVar gate ())

using :: Units -> IO a -> IO a
using units = bracket_ (obtain units) (release units)

available :: Units -> IO Int
available (Units count _) = readMVar count
