{-# LANGUAGE NoImplicitPrelude #-}
{-# LANGUAGE PackageImports #-}
{-# LANGUAGE Trustworthy #-}

-- | Stands in front of base's module: a time limit comes after a short time of any length.
module System.Timeout
  ( module Base
  , timeout
  ) where

import Litmus.Programs (limitOf, point, withPoints)
import "base" Prelude (IO, Int, Maybe, (>>), (>>=))
import "base" System.Timeout as Base hiding (timeout)
import qualified "base" System.Timeout as Original

timeout :: Int -> IO a -> IO (Maybe a)
timeout time act = point >> limitOf time >>= \short -> Original.timeout short (withPoints act)
