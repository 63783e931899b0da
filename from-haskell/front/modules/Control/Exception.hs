{-# LANGUAGE NoImplicitPrelude #-}
{-# LANGUAGE PackageImports #-}
{-# LANGUAGE RankNTypes #-}
{-# LANGUAGE Trustworthy #-}

-- | Stands in front of base's module: there are points before a mask, round what it restores, and behind a guarded action.
module Control.Exception
  ( module Base
  , bracket
  , bracketOnError
  , bracket_
  , catch
  , catchJust
  , catches
  , finally
  , handle
  , handleJust
  , mask
  , mask_
  , onException
  , throwTo
  , try
  , tryJust
  , uninterruptibleMask
  , uninterruptibleMask_
  ) where

import "base" Control.Concurrent (ThreadId)
import "base" Control.Exception as Base hiding
  ( bracket, bracketOnError, bracket_, catch, catchJust, catches, finally, handle, handleJust, mask, mask_, onException
  , throwTo, try, tryJust, uninterruptibleMask, uninterruptibleMask_ )
import qualified "base" Control.Exception as Original
import Litmus.Programs (point, withPoints)
import "base" Prelude (Either, IO, Maybe, (.), (>>))

mask, uninterruptibleMask :: ((forall a. IO a -> IO a) -> IO b) -> IO b
mask act = point >> Original.mask (\restore -> act (\inner -> restore (withPoints inner)))
uninterruptibleMask act = point >> Original.uninterruptibleMask (\restore -> act (\inner -> restore (withPoints inner)))

mask_, uninterruptibleMask_ :: IO a -> IO a
mask_ act = point >> Original.mask_ act
uninterruptibleMask_ act = point >> Original.uninterruptibleMask_ act

catch :: Exception e => IO a -> (e -> IO a) -> IO a
catch act = Original.catch (withPoints act)

handle :: Exception e => (e -> IO a) -> IO a -> IO a
handle handler act = catch act handler

catches :: IO a -> [Handler a] -> IO a
catches act = Original.catches (withPoints act)

catchJust :: Exception e => (e -> Maybe b) -> IO a -> (b -> IO a) -> IO a
catchJust which act = Original.catchJust which (withPoints act)

handleJust :: Exception e => (e -> Maybe b) -> (b -> IO a) -> IO a -> IO a
handleJust which handler act = catchJust which act handler

try :: Exception e => IO a -> IO (Either e a)
try act = Original.try (withPoints act)

tryJust :: Exception e => (e -> Maybe b) -> IO a -> IO (Either b a)
tryJust which act = Original.tryJust which (withPoints act)

onException :: IO a -> IO b -> IO a
onException act = Original.onException (withPoints act)

finally :: IO a -> IO b -> IO a
finally act behind = point >> Original.finally (withPoints act) behind

bracket, bracketOnError :: IO a -> (a -> IO b) -> (a -> IO c) -> IO c
bracket acquire release use = point >> Original.bracket acquire release (withPoints . use)
bracketOnError acquire release use = point >> Original.bracketOnError acquire release (withPoints . use)

bracket_ :: IO a -> IO b -> IO c -> IO c
bracket_ before behind act = point >> Original.bracket_ before behind (withPoints act)

throwTo :: Exception e => ThreadId -> e -> IO ()
throwTo thread e = point >> Original.throwTo thread e
