-- | Library: safe-exceptions. Its handlers let exceptions of other threads pass.
module Main (main) where

import Control.Concurrent
import qualified Control.Exception.Safe as Safe

main :: IO ()
main = do
  done <- newEmptyMVar
  worker <- forkIO (Safe.finally (Safe.handleAny (\_ -> putStrLn "handled") (putStrLn "work")) (putMVar done ()))
  killThread worker
  takeMVar done
  Safe.catchAny (Safe.throwIO (userError "mine")) (\_ -> putStrLn "caught")
