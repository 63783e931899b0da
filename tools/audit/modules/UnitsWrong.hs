-- | Units that threads take and give back. A handler gives the unit back, and then the end of the body does once more.
module UnitsWrong (Units, new, obtain, release, using, available) where

import Control.Concurrent.MVar
import Control.Exception
import Control.Monad (when)

data Units = Units (MVar Int) (MVar ())

new :: Int -> IO Units
new n = do
  gate <- if n > 0 then newMVar () else newEmptyMVar
  count <- newMVar n
  return (Units count gate)

obtain :: Units -> IO ()
obtain (Units count gate) = mask_ $ do
  takeMVar gate
  uninterruptibleMask_ $ do
    n <- takeMVar count
    putMVar count (n - 1)
    when (n > 1) (putMVar gate ())

release :: Units -> IO ()
release (Units count gate) = uninterruptibleMask_ $ do
  n <- takeMVar count
  putMVar count (n + 1)
  when (n == 0) (putMVar gate ())

using :: Units -> IO a -> IO a
using units action = mask $ \restore -> do
  obtain units
  restore (do { result <- action; release units; return result }) `onException` release units

available :: Units -> IO Int
available (Units count _) = readMVar count
