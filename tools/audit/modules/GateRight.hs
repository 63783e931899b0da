-- | A gate that one thread opens for another. Who is killed while he waits gives the seat back.
module GateRight (Gate, new, open, pass) where

import Control.Concurrent.MVar
import Control.Exception
import Control.Monad (void)

data Gate = Gate (MVar ()) (MVar ())

new :: IO Gate
new = Gate <$> newMVar () <*> newEmptyMVar

open :: Gate -> IO ()
open (Gate _ opened) = void (tryPutMVar opened ())

pass :: Gate -> IO ()
pass (Gate seat opened) = mask_ $ do
  takeMVar seat
  takeMVar opened `onException` putMVar seat ()
  putMVar seat ()
