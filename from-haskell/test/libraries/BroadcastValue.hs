-- | Library: concurrent-extra. A value that is broadcast comes to those who listen.
module Main (main) where

import Control.Concurrent
import qualified Control.Concurrent.Broadcast as Broadcast

main :: IO ()
main = do
  broadcast <- Broadcast.new
  heard <- newEmptyMVar
  _ <- forkIO (Broadcast.listen broadcast >>= putMVar heard)
  early <- Broadcast.tryListen broadcast
  Broadcast.broadcast broadcast (7 :: Int)
  value <- takeMVar heard
  print (early, value)
