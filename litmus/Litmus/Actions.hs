{-# LANGUAGE RankNTypes #-}

-- | The actions of scripts. Each is the function of @base@ or @async@ of its name, on evaluated values; those that need it
-- take the environment of their thread.
module Litmus.Actions
  ( -- * Values and exceptions
    evaluate
  , return
  , throwIO
  , catch
  , Exception.onException
  , Exception.finally
  , Exception.bracket

    -- * Masking
  , Exception.mask
  , Exception.mask_
  , Exception.uninterruptibleMask
  , Exception.uninterruptibleMask_
  , getMaskingState

    -- * Cells
  , newMVar
  , MVar.newEmptyMVar
  , MVar.takeMVar
  , MVar.readMVar
  , putMVar
  , MVar.tryTakeMVar
  , tryPutMVar
  , modifyMVar_

    -- * Threads
  , forkIO
  , forkIOWithUnmask
  , myThreadId
  , throwTo
  , killThread

    -- * Time
  , threadDelay
  , timeout
  , clockMicros

    -- * Output
  , putStr
  , putStrLn
  , hPutStrLn

    -- * Async scopes
  , withAsync
  , Async.wait
  , Async.cancel
  , race
  , concurrently

    -- * The thread of main
  , forkMain
  )
where

import qualified Control.Concurrent as Concurrent
import Control.Concurrent.Async (Async)
import qualified Control.Concurrent.Async as Async
import Control.Concurrent.MVar (MVar)
import qualified Control.Concurrent.MVar as MVar
import Control.Exception
  ( AsyncException (..)
  , BlockedIndefinitelyOnMVar (..)
  , BlockedIndefinitelyOnSTM (..)
  , SomeException
  , evaluate
  , fromException
  )
import qualified Control.Exception as Exception
import Control.Monad (void)
import Data.Text (Text)
import qualified Data.Text as Text
import GHC.Clock (getMonotonicTimeNSec)
import GHC.IO (unsafeUnmask)
import Litmus.Outcome (End (..))
import Litmus.Plan (pick)
import Litmus.Run
import Litmus.Values (exceptionText)
import qualified System.Timeout as Timeout
import Prelude hiding (putStr, putStrLn, return)
import qualified Prelude

-- | Gives the value, evaluated.
return :: a -> IO a
return = evaluate

throwIO :: SomeException -> IO a
throwIO exception = evaluate exception >>= Exception.throwIO

catch :: IO a -> (SomeException -> IO a) -> IO a
catch = Exception.catch

getMaskingState :: IO Text
getMaskingState = Text.pack . show <$> Exception.getMaskingState

newMVar :: a -> IO (MVar a)
newMVar value = evaluate value >>= MVar.newMVar

putMVar :: MVar a -> a -> IO ()
putMVar cell value = evaluated cell value MVar.putMVar

tryPutMVar :: MVar a -> a -> IO Bool
tryPutMVar cell value = evaluated cell value MVar.tryPutMVar

modifyMVar_ :: MVar a -> (a -> IO a) -> IO ()
modifyMVar_ cell body = evaluate cell >>= \there -> MVar.modifyMVar_ there body

-- | Evaluates both values, one behind the other, and then acts on them.
evaluated :: a -> b -> (a -> b -> IO c) -> IO c
evaluated one other action = do
  first <- evaluate one
  second <- evaluate other
  action first second

-- | A thread that runs the body with an environment of its own, and tells of the exception that ends it.
forkIO :: Env -> (Env -> IO ()) -> IO ThreadId
forkIO env body = case runForks run of
  Reported -> Exception.uninterruptibleMask $ \restore -> do
    child <- newChild env
    started child =<< Concurrent.forkIO (restore (body child) `Exception.catch` report child)
  Plain -> do
    child <- newChild env
    started child =<< Concurrent.forkIO ((registerSelf run >> body child) `Exception.catch` report child)
  where
    run = envRun env
    started child thread = do
      register run thread
      Prelude.return (ThreadId (envNumber child) thread)

forkIOWithUnmask :: Env -> (Env -> (forall a. IO a -> IO a) -> IO ()) -> IO ThreadId
forkIOWithUnmask env body = forkIO env (\child -> body child unsafeUnmask)

-- | The environment of a thread that is made now.
newChild :: Env -> IO Env
newChild env = nextNumber (envRun env) >>= numbered env

numbered :: Env -> Int -> IO Env
numbered env number = do
  seed <- draw env
  environment (envRun env) seed number

registerSelf :: Run -> IO ()
registerSelf run = Exception.uninterruptibleMask_ (Concurrent.myThreadId >>= register run)

-- | Tells of the exception that ended the thread, but for those of which GHC and scripts tell nothing.
report :: Env -> SomeException -> IO ()
report env exception
  | Just ThreadKilled <- fromException exception = Prelude.return ()
  | Just Async.AsyncCancelled <- fromException exception = Prelude.return ()
  | Just BlockedIndefinitelyOnMVar <- fromException exception = Prelude.return ()
  | Just BlockedIndefinitelyOnSTM <- fromException exception = Prelude.return ()
  | otherwise = hPutStrLn env (Text.pack ("uncaught exception in thread " <> number <> ": ") <> exceptionText exception)
  where
    number = show (envNumber env)

-- | Begins the run of a script, in a thread of its own, whose end is that of the run.
forkMain :: Env -> (Env -> IO ()) -> IO ()
forkMain env script = Exception.uninterruptibleMask $ \restore -> do
  thread <- Concurrent.forkIO $ do
    result <- Exception.try (restore (script env))
    case result of
      Right () -> close run (Just Done) Text.empty
      Left exception -> close run (Just Uncaught) (lineOf exception)
  register run thread
  where
    run = envRun env
    lineOf exception = Text.pack "uncaught exception in main: " <> exceptionText exception <> Text.pack "\n"

myThreadId :: Env -> IO ThreadId
myThreadId env = ThreadId (envNumber env) <$> Concurrent.myThreadId

throwTo :: ThreadId -> SomeException -> IO ()
throwTo target exception = evaluated target exception (\(ThreadId _ thread) -> Concurrent.throwTo thread)

killThread :: ThreadId -> IO ()
killThread target = evaluate target >>= \(ThreadId _ thread) -> Concurrent.killThread thread

-- | Sleeps for a short time of any length: in real timing delays end in any order. With 0 and less it doesn't sleep.
threadDelay :: Env -> Int -> IO ()
threadDelay env time = do
  there <- evaluate time
  Concurrent.threadDelay =<< shortTime env there

-- | The limit comes after a short time of any length. As in scripts it takes the number of a thread.
timeout :: Env -> Int -> IO a -> IO (Maybe a)
timeout env time body = do
  there <- evaluate time
  if there > 0 then void (nextNumber (envRun env)) else Prelude.return ()
  short <- shortTime env there
  Timeout.timeout short body

-- | A time that takes the place of one above 0, at most 1,000 microseconds.
shortTime :: Env -> Int -> IO Int
shortTime env time
  | time <= 0 = Prelude.return time
  | otherwise = do
      number <- draw env
      Prelude.return ([1, 1, 1, 10, 30, 60, 100, 200, 500, 1000] !! pick number 10)

-- | Microseconds since the run began.
clockMicros :: Env -> IO Int
clockMicros env = do
  now <- getMonotonicTimeNSec
  evaluate (fromIntegral ((now - runStart (envRun env)) `div` 1000))

putStr, putStrLn, hPutStrLn :: Env -> Text -> IO ()
putStr env text = evaluate text >>= putOutput env
putStrLn env text = evaluate text >>= \there -> putOutput env (Text.snoc there '\n')
hPutStrLn env text = evaluate text >>= \there -> putErrors env (Text.snoc there '\n')

withAsync :: Env -> (Env -> IO a) -> (Async a -> IO b) -> IO b
withAsync env block body = do
  number <- nextNumber (envRun env)
  Async.withAsync (inChild env number block) body

race :: Env -> (Env -> IO a) -> (Env -> IO b) -> IO (Either a b)
race env one other = do
  first <- nextNumber (envRun env)
  second <- nextNumber (envRun env)
  Async.race (inChild env first one) (inChild env second other)

concurrently :: Env -> (Env -> IO a) -> (Env -> IO b) -> IO (a, b)
concurrently env one other = do
  first <- nextNumber (envRun env)
  second <- nextNumber (envRun env)
  Async.concurrently (inChild env first one) (inChild env second other)

-- | The block of a thread that @async@ makes.
inChild :: Env -> Int -> (Env -> IO a) -> IO a
inChild env number block = do
  own <- numbered env number
  registerSelf (envRun env)
  block own
