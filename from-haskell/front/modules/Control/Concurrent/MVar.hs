{-# LANGUAGE NoImplicitPrelude #-}
{-# LANGUAGE PackageImports #-}
{-# LANGUAGE Trustworthy #-}

-- | Stands in front of base's module: its operations come later than they would.
module Control.Concurrent.MVar
  ( module Base
  , isEmptyMVar
  , modifyMVar
  , modifyMVarMasked
  , modifyMVarMasked_
  , modifyMVar_
  , putMVar
  , readMVar
  , swapMVar
  , takeMVar
  , tryPutMVar
  , tryReadMVar
  , tryTakeMVar
  , withMVar
  , withMVarMasked
  ) where

import "base" Control.Concurrent.MVar as Base hiding
  ( isEmptyMVar, modifyMVar, modifyMVar_, modifyMVarMasked, modifyMVarMasked_, putMVar, readMVar, swapMVar, takeMVar
  , tryPutMVar, tryReadMVar, tryTakeMVar, withMVar, withMVarMasked )
import qualified "base" Control.Concurrent.MVar as Original
import Control.Exception (mask, mask_)
import "base" Control.Exception (evaluate, onException)
import Litmus.Programs (point)
import "base" Prelude (Bool, IO, Maybe, return, (>>), (>>=))

takeMVar, readMVar :: MVar a -> IO a
takeMVar m = point >> Original.takeMVar m
readMVar m = point >> Original.readMVar m

putMVar :: MVar a -> a -> IO ()
putMVar m a = point >> Original.putMVar m a

tryTakeMVar, tryReadMVar :: MVar a -> IO (Maybe a)
tryTakeMVar m = point >> Original.tryTakeMVar m
tryReadMVar m = point >> Original.tryReadMVar m

tryPutMVar :: MVar a -> a -> IO Bool
tryPutMVar m a = point >> Original.tryPutMVar m a

isEmptyMVar :: MVar a -> IO Bool
isEmptyMVar m = point >> Original.isEmptyMVar m

swapMVar :: MVar a -> a -> IO a
swapMVar m new = mask_ (takeMVar m >>= \old -> putMVar m new >> return old)

withMVar, withMVarMasked :: MVar a -> (a -> IO b) -> IO b
withMVar m act = mask (\restore -> takeMVar m >>= \a -> (restore (act a) `onException` putMVar m a) >>= \b -> putMVar m a >> return b)
withMVarMasked m act = mask_ (takeMVar m >>= \a -> (act a `onException` putMVar m a) >>= \b -> putMVar m a >> return b)

modifyMVar_, modifyMVarMasked_ :: MVar a -> (a -> IO a) -> IO ()
modifyMVar_ m act = mask (\restore -> takeMVar m >>= \a -> (restore (act a) `onException` putMVar m a) >>= putMVar m)
modifyMVarMasked_ m act = mask_ (takeMVar m >>= \a -> (act a `onException` putMVar m a) >>= putMVar m)

modifyMVar, modifyMVarMasked :: MVar a -> (a -> IO (a, b)) -> IO b
modifyMVar m act =
  mask (\restore -> takeMVar m >>= \a -> (restore (act a >>= evaluate) `onException` putMVar m a) >>= \(b, c) -> putMVar m b >> return c)
modifyMVarMasked m act =
  mask_ (takeMVar m >>= \a -> ((act a >>= evaluate) `onException` putMVar m a) >>= \(b, c) -> putMVar m b >> return c)
