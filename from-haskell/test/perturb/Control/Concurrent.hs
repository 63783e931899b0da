{-# LANGUAGE PackageImports #-}
{-# LANGUAGE RankNTypes #-}
{-# LANGUAGE Trustworthy #-}

-- | Stands in front of base's module: its operations come later than they would.
module Control.Concurrent
  ( module Base
  , module Control.Concurrent.MVar
  , forkIO
  , forkIOWithUnmask
  , forkFinally
  , killThread
  , throwTo
  ) where

import "base" Control.Concurrent as Base hiding
  ( forkFinally, forkIO, forkIOWithUnmask, killThread, throwTo, modifyMVar, modifyMVar_, putMVar, readMVar, swapMVar
  , takeMVar, tryPutMVar, tryTakeMVar, withMVar )
import qualified "base" Control.Concurrent as Original
import Control.Concurrent.MVar
import Control.Exception (Exception, SomeException, mask, try)
import Perturb

forkIO :: IO () -> IO ThreadId
forkIO act = perturbed (Original.forkIO (perturbed act))

forkIOWithUnmask :: ((forall a. IO a -> IO a) -> IO ()) -> IO ThreadId
forkIOWithUnmask f = perturbed (Original.forkIOWithUnmask (\unmask -> perturbed (f unmask)))

forkFinally :: IO a -> (Either SomeException a -> IO ()) -> IO ThreadId
forkFinally act after = mask (\restore -> forkIO (try (restore act) >>= after))

killThread :: ThreadId -> IO ()
killThread t = perturbed (Original.killThread t)

throwTo :: Exception e => ThreadId -> e -> IO ()
throwTo t e = perturbed (Original.throwTo t e)
