-- | Library: safe-exceptions. A release runs uninterruptibly.
module Main (main) where

import Control.Concurrent
import qualified Control.Exception.Safe as Safe

main :: IO ()
main = do
  lock <- newMVar ()
  owner <- forkIO (Safe.bracket_ (takeMVar lock) (putMVar lock ()) (putStr "a"))
  killThread owner
  takeMVar lock
  putStrLn "m"
