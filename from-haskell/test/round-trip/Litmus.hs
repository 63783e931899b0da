{-# LANGUAGE FlexibleInstances #-}
{-# LANGUAGE GADTs #-}
{-# LANGUAGE RankNTypes #-}

-- |
-- What the modules import that are printed of scripts: each form is the function of base of its name, and the points do
-- nothing. So the translator makes a script of such a module again, which must have the same outcomes.
module Litmus
  ( run, Env, at, end
  , Int, Bool (..), Text, ThreadId, SomeException, Maybe (..), Either (..), MVar, Async, IO
  , evaluate, return, throwIO, catch, Exception.onException, Exception.finally, Exception.bracket
  , Exception.mask, Exception.mask_, Exception.uninterruptibleMask, Exception.uninterruptibleMask_, getMaskingState
  , newMVar, MVar.newEmptyMVar, MVar.takeMVar, MVar.readMVar, putMVar, MVar.tryTakeMVar, tryPutMVar, modifyMVar_
  , forkIO, forkIOWithUnmask, myThreadId, throwTo, killThread, threadDelay, timeout
  , putStr, putStrLn, hPutStrLn, withAsync, Async.wait, Async.cancel, race, concurrently
  , strict, (+), (-), (*), negate, div, mod, (&&), (||), not, Equal, (==), (/=), Ord, (<), (<=), (>), (>=)
  , text, (++), Shown, show, pair, fst, snd, just, left, right, list, (.:)
  , errorCall, threadKilled, userInterrupt, divideByZero, overflow
  ) where

import qualified Control.Concurrent as Concurrent
import Control.Concurrent (MVar, ThreadId)
import qualified Control.Concurrent.Async as Async
import Control.Concurrent.Async (Async)
import qualified Control.Concurrent.MVar as MVar
import Control.Exception (ArithException (..), AsyncException (..), ErrorCall (..), SomeException, evaluate, fromException, toException)
import qualified Control.Exception as Exception
import Prelude hiding (div, mod, negate, putStr, putStrLn, return, show, (*), (+), (++), (-), (/=), (<), (<=), (==), (>), (>=))
import qualified Prelude
import qualified System.IO as IO
import qualified System.Timeout as Timeout

infixl 7 *
infixl 6 +, -
infixr 5 .:, ++
infix 4 ==, /=, <, <=, >, >=

type Env = ()

type Text = String

run :: (Env -> IO ()) -> IO ()
run script = script ()

at, end :: Env -> Int -> Int -> IO a -> IO a
at _ _ _ action = action
end _ _ _ action = action

return :: a -> IO a
return = evaluate

throwIO :: SomeException -> IO a
throwIO exception = evaluate exception >>= Exception.throwIO

catch :: IO a -> (SomeException -> IO a) -> IO a
catch = Exception.catch

getMaskingState :: IO Text
getMaskingState = fmap Prelude.show Exception.getMaskingState

newMVar :: a -> IO (MVar a)
newMVar value = evaluate value >>= MVar.newMVar

putMVar :: MVar a -> a -> IO ()
putMVar cell value = evaluate value >>= MVar.putMVar cell

tryPutMVar :: MVar a -> a -> IO Bool
tryPutMVar cell value = evaluate value >>= MVar.tryPutMVar cell

modifyMVar_ :: MVar a -> (a -> IO a) -> IO ()
modifyMVar_ = MVar.modifyMVar_

forkIO :: Env -> (Env -> IO ()) -> IO ThreadId
forkIO env body = Concurrent.forkIO (body env)

forkIOWithUnmask :: Env -> (Env -> (forall a. IO a -> IO a) -> IO ()) -> IO ThreadId
forkIOWithUnmask env body = Concurrent.forkIOWithUnmask (body env)

myThreadId :: Env -> IO ThreadId
myThreadId _ = Concurrent.myThreadId

throwTo :: ThreadId -> SomeException -> IO ()
throwTo target exception = evaluate exception >>= Concurrent.throwTo target

killThread :: ThreadId -> IO ()
killThread = Concurrent.killThread

threadDelay :: Env -> Int -> IO ()
threadDelay _ time = evaluate time >>= Concurrent.threadDelay

timeout :: Env -> Int -> IO a -> IO (Maybe a)
timeout _ time body = evaluate time >>= \there -> Timeout.timeout there body

putStr, putStrLn, hPutStrLn :: Env -> Text -> IO ()
putStr _ = Prelude.putStr
putStrLn _ = Prelude.putStrLn
hPutStrLn _ = IO.hPutStrLn IO.stderr

withAsync :: Env -> (Env -> IO a) -> (Async a -> IO b) -> IO b
withAsync env block = Async.withAsync (block env)

race :: Env -> (Env -> IO a) -> (Env -> IO b) -> IO (Either a b)
race env one other = Async.race (one env) (other env)

concurrently :: Env -> (Env -> IO a) -> (Env -> IO b) -> IO (a, b)
concurrently env one other = Async.concurrently (one env) (other env)

strict :: (a -> b) -> a -> b
strict function value = value `seq` function value

both :: (a -> b -> c) -> a -> b -> c
both function one other = one `seq` (other `seq` function one other)

(+), (-), (*), div, mod :: Int -> Int -> Int
(+) = both (Prelude.+)
(-) = both (Prelude.-)
(*) = both (Prelude.*)
div = both Prelude.div
mod = both Prelude.mod

negate :: Int -> Int
negate = Prelude.negate

(<), (<=), (>), (>=) :: Ord a => a -> a -> Bool
(<) = both (Prelude.<)
(<=) = both (Prelude.<=)
(>) = both (Prelude.>)
(>=) = both (Prelude.>=)

class Equal a where
  equal :: a -> a -> Bool

(==), (/=) :: Equal a => a -> a -> Bool
(==) = both equal
(/=) = both (\one other -> not (equal one other))

instance Equal Int where
  equal = (Prelude.==)

instance Equal Bool where
  equal = (Prelude.==)

instance Equal Char where
  equal = (Prelude.==)

instance a ~ Char => Equal [a] where
  equal = (Prelude.==)

instance Equal ThreadId where
  equal = (Prelude.==)

-- | Of exceptions those are equal whose constructor and content are.
instance Equal SomeException where
  equal one other
    | Just (ErrorCall a) <- fromException one = maybe False (\(ErrorCall b) -> a Prelude.== b) (fromException other)
    | Just a <- fromException one = maybe False (sameArithmetic a) (fromException other)
    | Just a <- fromException one = maybe False (sameSignal a) (fromException other)
    | otherwise = False

sameArithmetic :: ArithException -> ArithException -> Bool
sameArithmetic = (Prelude.==)

sameSignal :: AsyncException -> AsyncException -> Bool
sameSignal = (Prelude.==)

class Shown a where
  show :: a -> Text

instance Shown Int where
  show = Prelude.show

instance Shown Bool where
  show = Prelude.show

instance Shown ThreadId where
  show = Prelude.show

instance Shown SomeException where
  show = Prelude.show

text :: String -> Text
text = id

(++) :: Text -> Text -> Text
(++) = both (Prelude.++)

pair :: a -> b -> (a, b)
pair = both (,)

just :: a -> Maybe a
just = strict Just

left :: a -> Either a b
left = strict Left

right :: b -> Either a b
right = strict Right

(.:) :: a -> [a] -> [a]
(.:) = both (:)

list :: [a] -> [a]
list = foldr (.:) []

errorCall :: Text -> SomeException
errorCall = strict (toException . ErrorCall)

threadKilled, userInterrupt, divideByZero, overflow :: SomeException
threadKilled = toException ThreadKilled
userInterrupt = toException UserInterrupt
divideByZero = toException DivideByZero
overflow = toException Overflow
