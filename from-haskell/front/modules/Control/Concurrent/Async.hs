{-# LANGUAGE NoImplicitPrelude #-}
{-# LANGUAGE PackageImports #-}
{-# LANGUAGE Trustworthy #-}

-- | Stands in front of the module of the library @async@: the threads that it makes are those of the run.
module Control.Concurrent.Async
  ( module Base
  , Concurrently (..)
  , async
  , concurrently
  , concurrently_
  , forConcurrently
  , forConcurrently_
  , mapConcurrently
  , mapConcurrently_
  , race
  , race_
  , replicateConcurrently_
  , withAsync
  ) where

import "base" Control.Monad (replicateM_, void)
import "async" Control.Concurrent.Async as Base hiding
  ( Concurrently (..), async, concurrently, concurrently_, forConcurrently, forConcurrently_, mapConcurrently
  , mapConcurrently_, race, race_, replicateConcurrently_, withAsync )
import qualified "async" Control.Concurrent.Async as Original
import "base" Data.Foldable (traverse_)
import Litmus.Programs (inBlock, point, withPoints)
import "base" Prelude (Applicative (..), Either, Foldable, Functor (..), IO, Int, Traversable (..), (.), (>>), (>>=))

-- | The block, in a thread of the run.
block :: IO a -> IO (IO a)
block act = point >> inBlock >>= \inThread -> pure (inThread (withPoints act))

async :: IO a -> IO (Async a)
async act = block act >>= Original.async

withAsync :: IO a -> (Async a -> IO b) -> IO b
withAsync act use = block act >>= \b -> Original.withAsync b (withPoints . use)

race :: IO a -> IO b -> IO (Either a b)
race left right = block left >>= \l -> block right >>= \r -> Original.race l r

race_ :: IO a -> IO b -> IO ()
race_ left right = void (race left right)

concurrently :: IO a -> IO b -> IO (a, b)
concurrently left right = block left >>= \l -> block right >>= \r -> Original.concurrently l r

concurrently_ :: IO a -> IO b -> IO ()
concurrently_ left right = void (concurrently left right)

-- | An action that stands beside others.
newtype Concurrently a = Concurrently {runConcurrently :: IO a}

instance Functor Concurrently where
  fmap f (Concurrently act) = Concurrently (fmap f act)

instance Applicative Concurrently where
  pure = Concurrently . pure
  Concurrently f <*> Concurrently x = Concurrently (fmap (\(g, y) -> g y) (concurrently f x))

mapConcurrently :: Traversable t => (a -> IO b) -> t a -> IO (t b)
mapConcurrently f = runConcurrently . traverse (Concurrently . f)

mapConcurrently_ :: Foldable t => (a -> IO b) -> t a -> IO ()
mapConcurrently_ f = runConcurrently . traverse_ (Concurrently . f)

forConcurrently :: Traversable t => t a -> (a -> IO b) -> IO (t b)
forConcurrently xs f = mapConcurrently f xs

forConcurrently_ :: Foldable t => t a -> (a -> IO b) -> IO ()
forConcurrently_ xs f = mapConcurrently_ f xs

replicateConcurrently_ :: Int -> IO a -> IO ()
replicateConcurrently_ n = runConcurrently . replicateM_ n . Concurrently
