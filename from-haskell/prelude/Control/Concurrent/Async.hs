-- | Stands for the module of that name of the library @async@, which doesn't come with GHC: its scopes, by cells. A scope
-- stops its child by ThreadKilled, where the library has an exception of its own. Its texts follow the documentation.
module Control.Concurrent.Async
  ( Async
  , Concurrently (..)
  , async
  , asyncThreadId
  , cancel
  , concurrently
  , concurrently_
  , forConcurrently
  , forConcurrently_
  , mapConcurrently
  , mapConcurrently_
  , race
  , race_
  , replicateConcurrently_
  , wait
  , waitCatch
  , withAsync
  ) where

import Control.Concurrent
import Control.Exception
import Control.Monad (replicateM_, void)
import Data.Foldable (for_, traverse_)
import Data.Traversable (for)

-- | A child: its thread, and how it ended.
data Async a = Async ThreadId (MVar (Either SomeException a))

-- | How an action ended.
attempt :: IO a -> IO (Either SomeException a)
attempt = try

async :: IO a -> IO (Async a)
async act = do
  end <- newEmptyMVar
  child <- mask (\restore -> forkIO (attempt (restore act) >>= putMVar end))
  return (Async child end)

withAsync :: IO a -> (Async a -> IO b) -> IO b
withAsync act use = do
  end <- newEmptyMVar
  mask $ \restore -> do
    child <- forkIO (attempt (restore act) >>= putMVar end)
    answer <- restore (use (Async child end)) `catch` \e -> stop child end >> throwIO (e :: SomeException)
    stop child end
    return answer
 where
  stop child end = uninterruptibleMask_ (killThread child >> void (readMVar end))

asyncThreadId :: Async a -> ThreadId
asyncThreadId (Async child _) = child

wait :: Async a -> IO a
wait (Async _ end) = readMVar end >>= either throwIO return

waitCatch :: Async a -> IO (Either SomeException a)
waitCatch (Async _ end) = readMVar end

cancel :: Async a -> IO ()
cancel (Async child end) = killThread child >> void (readMVar end)

race :: IO a -> IO b -> IO (Either a b)
race left right = do
  first <- newEmptyMVar
  withAsync (tell first (fmap Left) left) $ \_ ->
    withAsync (tell first (fmap Right) right) $ \_ ->
      takeMVar first >>= either throwIO return
 where
  tell first tag act = mask $ \restore -> attempt (restore act) >>= \end -> void (tryPutMVar first (tag end))

race_ :: IO a -> IO b -> IO ()
race_ left right = void (race left right)

concurrently :: IO a -> IO b -> IO (a, b)
concurrently left right = do
  first <- newEmptyMVar
  withAsync (tell first left) $ \a ->
    withAsync (tell first right) $ \b -> do
      takeMVar first >>= either throwIO return
      x <- wait a
      y <- wait b
      return (x, y)
 where
  tell first act = mask $ \restore -> do
    end <- attempt (restore act)
    case end of
      Left e -> tryPutMVar first (Left e) >> throwIO (e :: SomeException)
      Right x -> tryPutMVar first (Right ()) >> return x

concurrently_ :: IO a -> IO b -> IO ()
concurrently_ left right = void (concurrently left right)

-- | An action that stands beside others.
newtype Concurrently a = Concurrently {runConcurrently :: IO a}

instance Functor Concurrently where
  fmap f (Concurrently act) = Concurrently (fmap f act)

instance Applicative Concurrently where
  pure = Concurrently . return
  Concurrently f <*> Concurrently x = Concurrently (fmap (\(g, y) -> g y) (concurrently f x))

mapConcurrently :: Traversable t => (a -> IO b) -> t a -> IO (t b)
mapConcurrently f = runConcurrently . traverse (Concurrently . f)

mapConcurrently_ :: Foldable t => (a -> IO b) -> t a -> IO ()
mapConcurrently_ f = runConcurrently . traverse_ (Concurrently . f)

forConcurrently :: Traversable t => t a -> (a -> IO b) -> IO (t b)
forConcurrently xs f = runConcurrently (for xs (Concurrently . f))

forConcurrently_ :: Foldable t => t a -> (a -> IO b) -> IO ()
forConcurrently_ xs f = runConcurrently (for_ xs (Concurrently . f))

replicateConcurrently_ :: Int -> IO a -> IO ()
replicateConcurrently_ n = runConcurrently . replicateM_ n . Concurrently
