{-# LANGUAGE NoImplicitPrelude #-}
{-# LANGUAGE PackageImports #-}
{-# LANGUAGE RankNTypes #-}
{-# LANGUAGE Trustworthy #-}

-- | Stands in front of base's module: its threads are those of the run, and its operations come later than they would.
module Control.Concurrent
  ( module Base
  , module Control.Concurrent.MVar
  , forkFinally
  , forkIO
  , forkIOWithUnmask
  , killThread
  , threadDelay
  , throwTo
  , yield
  ) where

import "base" Control.Concurrent as Base hiding
  ( forkFinally, forkIO, forkIOWithUnmask, isEmptyMVar, killThread, modifyMVar, modifyMVar_, modifyMVarMasked, modifyMVarMasked_
  , putMVar, readMVar, swapMVar, takeMVar, threadDelay, throwTo, tryPutMVar, tryReadMVar, tryTakeMVar, withMVar
  , withMVarMasked, yield )
import qualified "base" Control.Concurrent as Original
import Control.Concurrent.MVar
import "base" Control.Exception (AsyncException (..), SomeException)
import Control.Exception (mask, throwTo, try)
import "base" GHC.IO (unsafeUnmask)
import Litmus.Programs (delayOf, fork, point)
import "base" Prelude (Either, IO, Int, return, (>>), (>>=))

forkIO :: IO () -> IO ThreadId
forkIO action = point >> fork action

forkIOWithUnmask :: ((forall a. IO a -> IO a) -> IO ()) -> IO ThreadId
forkIOWithUnmask action = forkIO (action unmasked)
 where
  unmasked :: IO a -> IO a
  unmasked act = unsafeUnmask (point >> act >>= \answer -> point >> return answer)

forkFinally :: IO a -> (Either SomeException a -> IO ()) -> IO ThreadId
forkFinally action behind = mask (\restore -> forkIO (try (restore action) >>= behind))

killThread :: ThreadId -> IO ()
killThread thread = throwTo thread ThreadKilled

threadDelay :: Int -> IO ()
threadDelay time = point >> delayOf time >>= Original.threadDelay

yield :: IO ()
yield = point >> Original.yield
