module Main (main) where

import Control.Concurrent
import Control.Exception

-- A print under a mask, beside another printer: GHC may interrupt it, which the note says.
main :: IO ()
main = do
  done <- newEmptyMVar
  t <- mask_ (forkIO (putStrLn "t" >> putMVar done ()))
  putStrLn "m"
  killThread t
  putStrLn "."
