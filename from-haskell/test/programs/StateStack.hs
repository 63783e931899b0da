{-# LANGUAGE FlexibleContexts #-}

module Main (main) where

import Control.Monad.State

count :: (MonadState Int m, MonadIO m) => String -> m ()
count s = do
  modify (+ 1)
  n <- get
  liftIO (putStrLn (s ++ show n))

main :: IO ()
main = execStateT (mapM_ count ["x", "y", "z"]) 5 >>= print
