-- | The finding of rest: that nothing can go on in a run any more, and what is done then.
--
-- GHC tells a thread that it waits for ever as soon as nothing can reach what it waits for; scripts are told once nothing
-- else can go on. So a run keeps its threads, which lets GHC tell none of them, and lets go of them at rest only.
module Litmus.Rest
  ( watch
  )
where

import Control.Concurrent (forkOn, getNumCapabilities, threadDelay)
import Control.Concurrent.MVar (newEmptyMVar, putMVar, takeMVar)
import Control.Monad (forM_, forever, replicateM_, unless, when)
import Data.IORef (IORef, atomicModifyIORef', readIORef, writeIORef)
import Data.Maybe (catMaybes)
import qualified Data.Text as Text
import Data.Word (Word64)
import GHC.Clock (getMonotonicTimeNSec)
import GHC.Conc (BlockReason (..), ThreadStatus (..), threadStatus)
import Litmus.Outcome (End (..))
import Litmus.Run (Run (..), close, isOver)
import System.Mem (performMajorGC)
import System.Mem.Weak (deRefWeak)

-- | What can be seen of a run from outside: how far it is, and which of its threads wait or have ended.
data Look = Look !Int ![State]
  deriving (Eq)

data State = Runs | Waits | Ended
  deriving (Eq)

-- | Watches the run that is current, for ever: finds its rest, and ends it where it isn't over after so many milliseconds.
watch :: Word64 -> IORef (Maybe Run) -> IO ()
watch limit current = forever $ do
  threadDelay 1000
  there <- readIORef current
  forM_ there $ \run -> do
    rests <- isAtRest run
    when rests (atRest run)
    now <- getMonotonicTimeNSec
    when (now - runStart run > limit * 1000000) (close run Nothing Text.empty)

-- | Tells the threads that wait for ever. Where that moves none of them, twice, the run is a deadlock.
atRest :: Run -> IO ()
atRest run = do
  moved <- tellMoves
  unless moved $ do
    movedThen <- tellMoves
    unless movedThen (close run (Just Deadlock) Text.empty)
  where
    tellMoves = do
      before <- look run
      tell run
      rests <- staysSo run before
      return (not rests)

-- | Lets go of the threads of the run, so that GHC finds those that wait for ever, and takes hold of the others again.
tell :: Run -> IO ()
tell run = do
  writeIORef (runHeld run) []
  performMajorGC
  threads <- readIORef (runThreads run) >>= mapM deRefWeak
  atomicModifyIORef' (runHeld run) (\new -> (catMaybes threads ++ new, ()))

-- | Whether each thread of the run waits or has ended, and nothing is on its way.
isAtRest :: Run -> IO Bool
isAtRest run = do
  before <- look run
  staysSo run before

-- | Whether this look shows rest, and shows it still once all has arrived that was on its way.
staysSo :: Run -> Look -> IO Bool
staysSo run before@(Look _ states)
  | Runs `elem` states = return False
  | otherwise = go (3 :: Int)
  where
    go 0 = return True
    go times = do
      settle
      after <- look run
      over <- isOver run
      if after == before && not over then go (times - 1) else return False

-- | Waits until each timer of a script has come that was out, and each message that was under way between capabilities: the
-- delays of scripts are shorter, and a capability reads its messages before it runs another thread.
settle :: IO ()
settle = replicateM_ 2 $ do
  threadDelay 1500
  count <- getNumCapabilities
  forM_ [0 .. count - 1] $ \capability -> do
    there <- newEmptyMVar
    _ <- forkOn capability (putMVar there ())
    takeMVar there

look :: Run -> IO Look
look run = do
  progress <- readIORef (runProgress run)
  threads <- readIORef (runHeld run)
  states <- mapM (fmap stateOf . threadStatus) threads
  return $! forced states `seq` Look progress states
  where
    forced = foldr seq ()

stateOf :: ThreadStatus -> State
stateOf status = case status of
  ThreadFinished -> Ended
  ThreadDied -> Ended
  ThreadBlocked BlockedOnMVar -> Waits
  ThreadBlocked BlockedOnException -> Waits
  ThreadBlocked BlockedOnSTM -> Waits
  ThreadBlocked _ -> Runs
  ThreadRunning -> Runs
