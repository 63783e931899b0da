-- | Library: SafeSemaphore. Two threads in a section for one, one of them killed.
module Main (main) where

import Control.Concurrent
import Control.Exception
import qualified Control.Concurrent.MSem as Semaphore

main :: IO ()
main = do
  semaphore <- Semaphore.new (1 :: Int)
  inside <- newMVar (0 :: Int)
  one <- newEmptyMVar
  two <- newEmptyMVar
  let enter = modifyMVar_ inside (\n -> if n > 0 then putStrLn "two are inside" >> return (n + 1) else return (n + 1))
      leave = modifyMVar_ inside (return . subtract 1)
      section = Semaphore.with semaphore (bracket_ enter leave (return ()))
  first <- forkFinally section (\_ -> putMVar one ())
  _ <- forkFinally section (\_ -> putMVar two ())
  killThread first
  takeMVar one
  takeMVar two
  Semaphore.peekAvail semaphore >>= print
