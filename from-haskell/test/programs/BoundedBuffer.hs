module Main (main) where

import Control.Concurrent
import Control.Exception
import Control.Monad

data Buffer a = Buffer {items :: MVar [a], room :: MVar (), some :: MVar ()}

push :: Buffer a -> a -> IO ()
push b x = mask_ $ do
  takeMVar (room b)
  modifyMVar_ (items b) (\xs -> return (xs ++ [x]))
  putMVar (some b) ()

pull :: Buffer a -> IO (Maybe a)
pull b = mask_ $ do
  takeMVar (some b)
  x <- modifyMVar (items b) $ \xs -> return $ case xs of
    y : ys -> (ys, Just y)
    [] -> ([], Nothing)
  putMVar (room b) ()
  return x

-- A buffer of one place, between a writer that is killed and main.
main :: IO ()
main = do
  b <- Buffer <$> newMVar [] <*> newMVar () <*> newEmptyMVar
  t <- forkIO (mapM_ (push b) [1, 2 :: Int])
  x <- pull b
  killThread t
  r <- try (pull b)
  putStrLn $ maybe "?" show x ++ case r of
    Left BlockedIndefinitelyOnMVar -> " nothing more"
    Right y -> maybe "?" show y
