module Main (main) where

import Control.Concurrent
import Control.Monad

-- A cache of one key: who comes first puts a promise, the others wait for it.
data Entry = Absent | Waiting (MVar Int)

lookupOr :: MVar Entry -> IO Int -> IO Int
lookupOr cache compute = do
  r <- modifyMVar cache $ \entry -> case entry of
    Waiting box -> return (entry, Left box)
    Absent -> do
      box <- newEmptyMVar
      return (Waiting box, Right box)
  case r of
    Left box -> readMVar box
    Right box -> do
      n <- compute
      putMVar box n
      return n

main :: IO ()
main = do
  cache <- newMVar Absent
  done <- newEmptyMVar
  forM_ [1, 2 :: Int] $ \i -> forkIO (lookupOr cache (putStr ("c" ++ show i) >> return i) >>= putMVar done)
  a <- takeMVar done
  b <- takeMVar done
  print (a == b)
