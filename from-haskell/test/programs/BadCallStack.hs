module Main (main) where

import Control.Concurrent
import Control.Exception

main :: IO ()
main = do
  n <- newMVar (0 :: Int) >>= readMVar
  r <- try (evaluate (if n == 0 then error "empty" else n))
  putStrLn (either (\e -> show (e :: SomeException)) show r)
