module Main (main) where

import Control.Concurrent
import Control.Monad

-- Actions as values: in a record, in a list, in a choice.
data Service = Service {start, stop :: IO (), report :: String -> IO ()}

make :: String -> IO Service
make name = do
  on <- newMVar False
  return Service
    { start = void (swapMVar on True)
    , stop = void (swapMVar on False)
    , report = \p -> readMVar on >>= \b -> putStrLn (p ++ name ++ (if b then " on" else " off"))
    }

main :: IO ()
main = do
  a <- make "a"
  b <- make "b"
  sequence_ [start a, start b]
  flag <- newMVar True
  f <- readMVar flag
  (if f then stop else start) b
  mapM_ (\s -> report s "= ") [a, b]
