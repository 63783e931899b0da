-- | One run of a script: what it printed, its threads, and how it ended.
module Litmus.Run
  ( -- * A run and what a thread of it knows
    Run (..)
  , Forks (..)
  , newRun
  , Env (..)
  , environment
  , draw

    -- * Threads
  , ThreadId (..)
  , nextNumber
  , register

    -- * Output
  , putOutput
  , putErrors
  , isOver
  , close
  )
where

import qualified Control.Concurrent as Concurrent
import Control.Concurrent.MVar (MVar, newEmptyMVar, tryPutMVar)
import Control.Monad (void)
import Data.IORef (IORef, atomicModifyIORef', newIORef, readIORef, writeIORef)
import Data.Set (Set)
import Data.Text (Text)
import qualified Data.Text as Text
import Data.Word (Word64)
import GHC.Clock (getMonotonicTimeNSec)
import GHC.Conc (mkWeakThreadId)
import Litmus.Outcome (End, Outcome (..), Result (..))
import Litmus.Plan (Place, Plan, mix)
import System.Mem.Weak (Weak)

-- | Where the handler stands that tells of the exception which ended a thread.
data Forks
  = -- | round the thread from before its first step, so that each exception is told
    Reported
  | -- | inside the thread, as GHC has it, so that one which comes before the first step is told by nobody
    Plain
  deriving (Eq)

-- | What was printed up to now, the last first, or that the run is over.
data Output = Open [Text] [Text] | Closed

-- | A run.
data Run = Run
  { runPlan :: !Plan
  , runForks :: !Forks
  , runStart :: !Word64
  -- ^ when it began, in nanoseconds
  , runPlaces :: !(IORef (Set Place))
  -- ^ the places that runs of this script have come to
  , runOutput :: !(IORef Output)
  , runNumbers :: !(IORef Int)
  -- ^ the number of the next thread
  , runHeld :: !(IORef [Concurrent.ThreadId])
  -- ^ its threads, so that none is told that it waits for ever while the run isn't at rest
  , runThreads :: !(IORef [Weak Concurrent.ThreadId])
  -- ^ its threads, where that keeps none of them
  , runProgress :: !(IORef Int)
  -- ^ how many points its threads have come to
  , runResult :: !(MVar Result)
  }

-- | A run that hasn't begun.
newRun :: Forks -> IORef (Set Place) -> Plan -> IO Run
newRun forks places plan = do
  now <- getMonotonicTimeNSec
  Run plan forks now places
    <$> newIORef (Open [] [])
    <*> newIORef 1
    <*> newIORef []
    <*> newIORef []
    <*> newIORef 0
    <*> newEmptyMVar

-- | What a thread knows: its run, its number, and where it stands in its own row of numbers.
data Env = Env
  { envRun :: !Run
  , envNumber :: !Int
  , envRow :: !(IORef Word64)
  }

-- | The environment of a thread with this number.
environment :: Run -> Word64 -> Int -> IO Env
environment run seed number = Env run number <$> newIORef (mix (seed + fromIntegral number))

-- | The next number of the thread's row.
draw :: Env -> IO Word64
draw env = do
  number <- readIORef (envRow env)
  let next = number + 0x9e3779b97f4a7c15
  next `seq` writeIORef (envRow env) next
  return (mix next)

-- | A thread: its number in the run, and GHC's thread.
data ThreadId = ThreadId !Int !Concurrent.ThreadId

-- | The number of a thread that is made now.
nextNumber :: Run -> IO Int
nextNumber run = atomicModifyIORef' (runNumbers run) (\number -> (number + 1, number))

-- | Notes a thread of the run.
register :: Run -> Concurrent.ThreadId -> IO ()
register run thread = do
  weak <- mkWeakThreadId thread
  atomicModifyIORef' (runHeld run) (\threads -> (thread : threads, ()))
  atomicModifyIORef' (runThreads run) (\threads -> (weak : threads, ()))

-- | Prints; behind the end of the run nothing is printed.
putOutput, putErrors :: Env -> Text -> IO ()
putOutput env text = text `seq` atomicModifyIORef' (runOutput (envRun env)) put
  where
    put (Open output errors) = (Open (text : output) errors, ())
    put Closed = (Closed, ())
putErrors env text = text `seq` atomicModifyIORef' (runOutput (envRun env)) put
  where
    put (Open output errors) = (Open output (text : errors), ())
    put Closed = (Closed, ())

-- | Whether the run is over.
isOver :: Run -> IO Bool
isOver run = do
  output <- readIORef (runOutput run)
  return $ case output of
    Closed -> True
    Open _ _ -> False

-- | Ends the run so, with this as the last of its error output; without an end it counts as one that has none. Only the
-- first end of a run counts.
close :: Run -> Maybe End -> Text -> IO ()
close run ending lastErrors = do
  output <- atomicModifyIORef' (runOutput run) (\output -> (Closed, output))
  case output of
    Closed -> return ()
    Open out errors -> void (tryPutMVar (runResult run) $! result (joined [] out) (joined [lastErrors] errors))
  where
    joined more texts = Text.concat (reverse texts ++ more)
    result out errors = case ending of
      Just how -> out `seq` errors `seq` Ended (Outcome how out errors)
      Nothing -> NoEnd
