-- | A supervisor starts its child again until it ends well, at most three times.
module Main (main) where

import Control.Concurrent
import Control.Exception
import Control.Monad

data Event = Started Int | Failed String | Ended

tell :: Event -> String
tell event = case event of
  Started n -> "started " ++ show n
  Failed why -> "failed: " ++ why
  Ended -> "ended"

supervise :: MVar [Event] -> (Int -> IO ()) -> IO ()
supervise events child = go 0
 where
  go n
    | n == 3 = note (Failed "gave up")
    | otherwise = do
        note (Started n)
        done <- newEmptyMVar
        _ <- forkFinally (child n) (putMVar done)
        result <- takeMVar done
        case result of
          Right () -> note Ended
          Left e -> note (Failed (show e)) >> go (n + 1)
  note event = modifyMVar_ events (return . (event :))

-- ! always done and output "started 0\nfailed: crash 0\nstarted 1\nended\n"
main :: IO ()
main = do
  events <- newMVar []
  supervise events (\n -> when (n < 1) (throwIO (ErrorCall ("crash " ++ show n))))
  readMVar events >>= mapM_ (putStrLn . tell) . reverse
