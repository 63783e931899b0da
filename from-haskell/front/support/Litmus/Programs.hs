{-# LANGUAGE MagicHash #-}
{-# LANGUAGE RankNTypes #-}
{-# LANGUAGE UnliftedFFITypes #-}

-- | Haskell programs that are run again and again in one process, as scripts are. The modules that stand in front of those
-- of @base@ call what is here: each thread of a run is known by its number, has points at which it is made to wait, and
-- prints to the run that it belongs to.
module Litmus.Programs
  ( runPrograms

    -- * Points
  , point
  , withPoints

    -- * Threads
  , fork
  , inBlock

    -- * Time
  , delayOf
  , limitOf

    -- * Output
  , handleOf
  )
where

import Control.Concurrent (ThreadId, myThreadId)
import qualified Control.Concurrent as Concurrent
import Control.Exception (SomeException, catch, throwIO, try, uninterruptibleMask, uninterruptibleMask_)
import Control.Monad (void, when)
import qualified Data.ByteString as ByteString
import Data.IORef (IORef, atomicModifyIORef', newIORef, readIORef, writeIORef)
import Data.IntMap.Strict (IntMap)
import qualified Data.IntMap.Strict as IntMap
import qualified Data.Text as Text
import qualified Data.Text.Encoding as Text
import Data.Text.Encoding.Error (lenientDecode)
import Foreign.C.Types (CInt (..))
import GHC.Conc (ThreadId (..))
import GHC.Exts (ThreadId#)
import Litmus.Main (runScripts)
import Litmus.Plan (pick)
import qualified Litmus.Point as Point
import Litmus.Run (Env (..), environment, draw, nextNumber, putErrors, putOutput, register)
import Litmus.Sink (Sink, newSink, sinkHandle, sinkBytes)
import Litmus.Values (exceptionText)
import System.IO (BufferMode (..), Handle, hFlush, hSetBuffering, stderr, stdout)
import System.IO.Unsafe (unsafePerformIO)

-- | A thread of a run: how many points it has come to, and what its run prints to.
data Member = Member
  { memberEnv :: !Env
  , memberCount :: !(IORef Int)
  , memberStreams :: !Streams
  }

-- | Standard output and error output of a run.
data Streams = Streams
  { streamOutput :: !Handle
  , streamErrors :: !Handle
  , streamOutputSink :: !Sink
  , streamErrorsSink :: !Sink
  }

-- | The threads of all runs that haven't ended, by GHC's numbers of them, which keep no thread.
members :: IORef (IntMap Member)
members = unsafePerformIO (newIORef IntMap.empty)
{-# NOINLINE members #-}

foreign import ccall unsafe "rts_getThreadId" threadNumber# :: ThreadId# -> CInt

threadNumber :: ThreadId -> Int
threadNumber (ThreadId thread) = fromIntegral (threadNumber# thread)

-- | The thread that asks. One that the modules in front didn't make is none.
self :: IO (Maybe Member)
self = do
  number <- threadNumber <$> myThreadId
  IntMap.lookup number <$> readIORef members

enter :: Member -> IO ()
enter member = do
  number <- threadNumber <$> myThreadId
  atomicModifyIORef' members (\there -> (IntMap.insert number member there, ()))

leave :: IO ()
leave = do
  number <- threadNumber <$> myThreadId
  atomicModifyIORef' members (\there -> (IntMap.delete number there, ()))

-- | Runs programs, by their names, as the options of the command line say, and prints their outcomes.
runPrograms :: [(String, IO ())] -> IO ()
runPrograms programs = runScripts [(name, program action) | (name, action) <- programs]

-- | A run of a program, in its thread of main.
program :: IO () -> Env -> IO ()
program action env = do
  streams <- newStreams
  count <- newIORef 0
  result <- uninterruptibleMask $ \restore -> do
    enter (Member env count streams)
    result <- try (restore (withPoints action))
    putStreams env streams
    leave
    return result
  either (throwIO :: SomeException -> IO ()) return result

newStreams :: IO Streams
newStreams = do
  output <- newSink
  errors <- newSink
  outputHandle <- sinkHandle output
  errorsHandle <- sinkHandle errors
  hSetBuffering outputHandle (BlockBuffering Nothing)
  hSetBuffering errorsHandle NoBuffering
  return (Streams outputHandle errorsHandle output errors)

-- | What the run has printed is its output, as at the end of a process.
putStreams :: Env -> Streams -> IO ()
putStreams env streams = do
  hFlush (streamOutput streams)
  hFlush (streamErrors streams)
  put putOutput streamOutputSink
  put putErrors streamErrorsSink
  where
    put to sink = sinkBytes (sink streams) >>= to env . Text.decodeUtf8With lenientDecode . ByteString.concat

-- | A point of the thread: it waits a little here, or not at all, and for ever where its run is over.
point :: IO ()
point = self >>= mapM_ pointOf

pointOf :: Member -> IO ()
pointOf member = do
  count <- readIORef (memberCount member)
  writeIORef (memberCount member) (count + 1)
  Point.at (memberEnv member) (min count mostPlaces) 0 (return ())

-- | The points of a thread behind so many are one place of the plan.
mostPlaces :: Int
mostPlaces = 60

-- | The action, with a point before it and one behind it.
withPoints :: IO a -> IO a
withPoints action = do
  point
  answer <- action
  point
  return answer

-- | Forks a thread of the run, which tells of the exception that ends it.
fork :: IO () -> IO ThreadId
fork action = do
  parent <- self
  case parent of
    Nothing -> Concurrent.forkIO action
    Just member -> uninterruptibleMask $ \restore -> do
      child <- childOf member
      thread <- Concurrent.forkIO $ do
        enter child
        restore (point >> action) `catch` told child
        leave
      register (envRun (memberEnv child)) thread
      return thread

childOf :: Member -> IO Member
childOf member = do
  number <- nextNumber (envRun (memberEnv member))
  seed <- draw (memberEnv member)
  env <- environment (envRun (memberEnv member)) seed number
  count <- newIORef 0
  return (Member env count (memberStreams member))

-- | A block that a library runs in a thread of its own: that thread is one of the run while it does.
inBlock :: IO (IO a -> IO a)
inBlock = do
  parent <- self
  return $ \block -> case parent of
    Nothing -> block
    Just member -> do
      uninterruptibleMask_ $ do
        child <- childOf member
        enter child
        myThreadId >>= register (envRun (memberEnv child))
      block

-- | Tells of the exception that ended a thread, but for those of which GHC tells nothing.
told :: Member -> SomeException -> IO ()
told member exception = void $ do
  let env = memberEnv member
      text = exceptionText exception
  when (text `notElem` map Text.pack silent) $
    putErrors env (Text.concat [Text.pack ("uncaught exception in thread " <> show (envNumber env) <> ": "), text, Text.pack "\n"])
  where
    silent = ["thread killed", "thread blocked indefinitely in an MVar operation"]

-- | A time of any length in place of one above 0, so that delays end in any order.
delayOf :: Int -> IO Int
delayOf time = self >>= maybe (return time) (\member -> shortTime (memberEnv member) time)

-- | The same for a time limit, which takes the number of a thread as in scripts.
limitOf :: Int -> IO Int
limitOf time = do
  member <- self
  case member of
    Just there | time > 0 -> nextNumber (envRun (memberEnv there)) >> shortTime (memberEnv there) time
    _ -> return time

shortTime :: Env -> Int -> IO Int
shortTime env time
  | time <= 0 = return time
  | otherwise = do
      number <- draw env
      return ([1, 1, 1, 10, 30, 60, 100, 200, 500, 1000] !! pick number 10)

-- | The stream of the run that stands for a stream of the process.
handleOf :: Handle -> IO Handle
handleOf handle
  | handle == stdout = streamOf streamOutput
  | handle == stderr = streamOf streamErrors
  | otherwise = return handle
  where
    streamOf stream = maybe handle (stream . memberStreams) <$> self
