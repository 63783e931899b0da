{-# LANGUAGE NoImplicitPrelude #-}
{-# LANGUAGE PackageImports #-}
{-# LANGUAGE Trustworthy #-}

-- | Stands in front of base's module: its operations come later than they would.
module Data.IORef
  ( module Base
  , atomicModifyIORef
  , atomicModifyIORef'
  , atomicWriteIORef
  , modifyIORef
  , modifyIORef'
  , readIORef
  , writeIORef
  ) where

import "base" Data.IORef as Base hiding
  (atomicModifyIORef, atomicModifyIORef', atomicWriteIORef, modifyIORef, modifyIORef', readIORef, writeIORef)
import qualified "base" Data.IORef as Original
import Litmus.Programs (point)
import "base" Prelude (IO, seq, (>>), (>>=))

readIORef :: IORef a -> IO a
readIORef r = point >> Original.readIORef r

writeIORef, atomicWriteIORef :: IORef a -> a -> IO ()
writeIORef r a = point >> Original.writeIORef r a
atomicWriteIORef r a = point >> Original.atomicWriteIORef r a

modifyIORef, modifyIORef' :: IORef a -> (a -> a) -> IO ()
modifyIORef r f = readIORef r >>= \a -> writeIORef r (f a)
modifyIORef' r f = readIORef r >>= \a -> let b = f a in b `seq` writeIORef r b

atomicModifyIORef, atomicModifyIORef' :: IORef a -> (a -> (a, b)) -> IO b
atomicModifyIORef r f = point >> Original.atomicModifyIORef r f
atomicModifyIORef' r f = point >> Original.atomicModifyIORef' r f
