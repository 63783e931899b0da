module Main (main) where

import Control.Concurrent
import Control.Monad

data Barrier = Barrier Int (MVar (Int, [MVar ()]))

newBarrier :: Int -> IO Barrier
newBarrier n = Barrier n <$> newMVar (0, [])

-- The action that comes out of the block is run behind it.
await :: Barrier -> IO ()
await (Barrier n v) = do
  gate <- newEmptyMVar
  join $ modifyMVar v $ \(k, gates) ->
    if k + 1 == n
      then return ((0, []), mapM_ (`putMVar` ()) gates)
      else return ((k + 1, gate : gates), takeMVar gate)

main :: IO ()
main = do
  b <- newBarrier 2
  done <- newEmptyMVar
  forM_ ["a", "b"] $ \s -> forkIO $ do
    putStr (s ++ "1")
    await b
    putStr (s ++ "2")
    putMVar done ()
  replicateM_ 2 (takeMVar done)
  putStrLn "."
