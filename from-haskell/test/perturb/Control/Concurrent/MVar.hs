{-# LANGUAGE PackageImports #-}
{-# LANGUAGE Trustworthy #-}

-- | Stands in front of base's module: its operations come later than they would.
module Control.Concurrent.MVar
  ( module Base
  , modifyMVar
  , modifyMVar_
  , putMVar
  , readMVar
  , swapMVar
  , takeMVar
  , tryPutMVar
  , tryTakeMVar
  , withMVar
  ) where

import "base" Control.Concurrent.MVar as Base hiding
  (modifyMVar, modifyMVar_, putMVar, readMVar, swapMVar, takeMVar, tryPutMVar, tryTakeMVar, withMVar)
import qualified "base" Control.Concurrent.MVar as Original
import Control.Exception (evaluate, mask, mask_, onException)
import Perturb

takeMVar, readMVar :: MVar a -> IO a
takeMVar m = perturbed (Original.takeMVar m)
readMVar m = perturbed (Original.readMVar m)

putMVar :: MVar a -> a -> IO ()
putMVar m a = perturbed (Original.putMVar m a)

tryTakeMVar :: MVar a -> IO (Maybe a)
tryTakeMVar m = perturbed (Original.tryTakeMVar m)

tryPutMVar :: MVar a -> a -> IO Bool
tryPutMVar m a = perturbed (Original.tryPutMVar m a)

swapMVar :: MVar a -> a -> IO a
swapMVar m new = mask_ (takeMVar m >>= \old -> putMVar m new >> return old)

withMVar :: MVar a -> (a -> IO b) -> IO b
withMVar m act = mask $ \restore -> do
  a <- takeMVar m
  b <- restore (act a) `onException` putMVar m a
  putMVar m a
  return b

modifyMVar_ :: MVar a -> (a -> IO a) -> IO ()
modifyMVar_ m act = mask $ \restore -> do
  a <- takeMVar m
  b <- restore (act a) `onException` putMVar m a
  putMVar m b

modifyMVar :: MVar a -> (a -> IO (a, b)) -> IO b
modifyMVar m act = mask $ \restore -> do
  a <- takeMVar m
  (b, c) <- restore (act a >>= evaluate) `onException` putMVar m a
  putMVar m b
  return c
