{-# LANGUAGE NoImplicitPrelude #-}
{-# LANGUAGE PackageImports #-}
{-# LANGUAGE Trustworthy #-}

-- | Stands in front of base's module: what is printed goes to the run.
module Prelude
  ( module Base
  , print
  , putChar
  , putStr
  , putStrLn
  ) where

import "base" Prelude as Base hiding (print, putChar, putStr, putStrLn)
import System.IO (print, putChar, putStr, putStrLn)
