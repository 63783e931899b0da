module Main (main) where

import Control.Concurrent

data Message = Ping | Say String | Add Int Int

answer :: Message -> String
answer m = case m of
  Ping -> "pong"
  Say s -> s
  Add a b -> show (a + b)

main :: IO ()
main = do
  box <- newEmptyMVar
  _ <- forkIO (mapM_ (putMVar box) [Ping, Say "hi", Add 2 3])
  takeMVar box >>= putStrLn . answer
  takeMVar box >>= putStrLn . answer
  takeMVar box >>= putStrLn . answer
