-- | Library: concurrent-extra. Two threads change a variable, and main tries.
module Main (main) where

import Control.Concurrent
import qualified Control.Concurrent.ReadWriteVar as Variable

main :: IO ()
main = do
  variable <- Variable.new (1 :: Int)
  done <- newEmptyMVar
  _ <- forkIO (Variable.modify_ variable (return . (+ 1)) >> putMVar done ())
  tried <- Variable.tryModify variable (\n -> return (n * 2, n))
  takeMVar done
  Variable.with variable (\n -> print (tried, n))
