-- | A barrier of two threads: nobody goes on before both have come.
module Main (main) where

import Control.Concurrent
import Control.Monad

data Barrier = Barrier Int (MVar (Int, [MVar ()]))

newBarrier :: Int -> IO Barrier
newBarrier n = Barrier n <$> newMVar (0, [])

await :: Barrier -> IO ()
await (Barrier n cell) = do
  gate <- newEmptyMVar
  join $ modifyMVar cell $ \(came, gates) ->
    if came + 1 == n
      then return ((0, []), mapM_ (`putMVar` ()) gates)
      else return ((came + 1, gate : gates), takeMVar gate)

-- ! never deadlock
-- ! never output has "a2b1"
main :: IO ()
main = do
  barrier <- newBarrier 2
  done <- newEmptyMVar
  forM_ ["a", "b"] $ \name -> forkIO $ do
    putStr (name ++ "1")
    await barrier
    putStr (name ++ "2")
    putMVar done ()
  replicateM_ 2 (takeMVar done)
  putStrLn ""
