module Main (main) where

import Control.Concurrent
import Control.Exception

newtype Promise a = Promise (MVar (Either SomeException a))

promise :: IO a -> IO (Promise a, IO ())
promise act = do
  v <- newEmptyMVar
  t <- mask_ (forkIOWithUnmask (\u -> try (u act) >>= putMVar v))
  return (Promise v, killThread t)

redeem :: Promise a -> IO a
redeem (Promise v) = readMVar v >>= either throwIO return

main :: IO ()
main = do
  (p, cancel) <- promise (return (8 :: Int))
  cancel
  r <- try (redeem p)
  case r of
    Left e | Just ThreadKilled <- fromException e -> putStrLn "cancelled"
           | otherwise -> putStrLn "failed"
    Right n -> print n
