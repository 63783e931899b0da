{-# LANGUAGE GeneralizedNewtypeDeriving #-}

module Main (main) where

import Control.Concurrent
import Control.Monad.Reader

data Config = Config {logs :: MVar [String], level :: Int}

newtype App a = App {runApp :: ReaderT Config IO a}
  deriving (Functor, Applicative, Monad, MonadIO, MonadReader Config)

say :: String -> App ()
say s = do
  v <- asks logs
  liftIO (modifyMVar_ v (return . (s :)))

job :: Int -> App ()
job n = do
  l <- asks level
  when (n > l) (say "deep")
  say ("job " ++ show n)

main :: IO ()
main = do
  v <- newMVar []
  done <- newEmptyMVar
  forM_ [1, 2] $ \n -> forkIO (runReaderT (runApp (job n)) (Config v 1) >> putMVar done ())
  replicateM_ 2 (takeMVar done)
  readMVar v >>= mapM_ putStrLn
