module Main (main) where

import Control.Concurrent
import Control.Concurrent.QSemN

main :: IO ()
main = do
  s <- newQSemN 1
  t <- forkIO (waitQSemN s 2)
  signalQSemN s 1
  killThread t
  signalQSemN s 2
  waitQSemN s 2
  putStrLn "two units"
