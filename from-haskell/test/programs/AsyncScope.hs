module Main (main) where

import Control.Concurrent.Async
import Control.Exception

-- What a child that fails leaves: `wait` throws it again, and the scope ends.
main :: IO ()
main = do
  r <- try (withAsync (throwIO (ErrorCall "child")) wait)
  putStrLn $ case r of
    Left (ErrorCall s) -> s
    Right () -> "fine"
  n <- withAsync (return 3) (\a -> withAsync (putStr "c") (\_ -> wait a))
  print (n :: Int)
