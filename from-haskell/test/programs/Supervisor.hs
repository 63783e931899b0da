module Main (main) where

import Control.Concurrent
import Control.Exception
import Control.Monad

data Event = Started Int | Failed String | Ended

tell :: Event -> String
tell e = case e of
  Started n -> "started " ++ show n
  Failed s -> "failed: " ++ s
  Ended -> "ended"

-- Starts its child again until it ends well.
supervise :: Int -> MVar [Event] -> (Int -> IO ()) -> IO ()
supervise limit events child = go 0
 where
  go n
    | n == limit = note (Failed "gave up")
    | otherwise = do
        note (Started n)
        done <- newEmptyMVar
        _ <- forkFinally (child n) (putMVar done)
        r <- takeMVar done
        case r of
          Right () -> note Ended
          Left e -> note (Failed (show e)) >> go (n + 1)
  note e = modifyMVar_ events (return . (e :))

main :: IO ()
main = do
  events <- newMVar []
  supervise 3 events (\n -> when (n < 1) (throwIO (ErrorCall ("crash " ++ show n))))
  readMVar events >>= mapM_ (putStrLn . tell) . reverse
