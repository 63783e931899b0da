{-# LANGUAGE GADTs, RankNTypes #-}

module Main (main) where

import Control.Concurrent

data Command a where
  Get :: Command Int
  Put :: Int -> Command ()

run :: MVar Int -> Command a -> IO a
run v command = case command of
  Get -> readMVar v
  Put n -> modifyMVar_ v (const (return n))

both :: (forall a. Command a -> IO a) -> IO Int
both f = f (Put 4) >> f Get

main :: IO ()
main = do
  v <- newMVar 1
  _ <- forkIO (run v (Put 9))
  both (run v) >>= print
