-- | The points at which a run is made to wait a little. None of them can be interrupted.
module Litmus.Point
  ( at
  , end
  )
where

import Control.Concurrent (threadDelay, yield)
import Control.Concurrent.MVar (newEmptyMVar, takeMVar)
import Control.Exception (uninterruptibleMask_)
import Control.Monad (replicateM_, unless, when)
import Data.IORef (atomicModifyIORef', modifyIORef')
import qualified Data.Set as Set
import Litmus.Plan (Pause (..), Place (..), Side (..), isKnown, pauseAt)
import Litmus.Run (Env (..), Run (..), draw, isOver)

-- | A point, and then the action that stands at this line and column of the script.
at :: Env -> Int -> Int -> IO a -> IO a
at env line column action = do
  point env (Place (envNumber env) line column Before)
  action

-- | A point, the last action of a block, and a point behind it.
end :: Env -> Int -> Int -> IO a -> IO a
end env line column action = do
  point env (Place (envNumber env) line column Before)
  result <- action
  point env (Place (envNumber env) line column Behind)
  return result

point :: Env -> Place -> IO ()
point env place = do
  over <- isOver run
  if over
    then uninterruptibleMask_ (newEmptyMVar >>= takeMVar)
    else do
      count <- atomicModifyIORef' (runProgress run) (\count -> (count + 1, count))
      unless (isKnown (runPlan run) place) $
        atomicModifyIORef' (runPlaces run) (\places -> (Set.insert place places, ()))
      number <- draw env
      when (count < patience) (pause env (pauseAt (runPlan run) place number))
  where
    run = envRun env

-- | Behind so many points a run waits at none any more, so that one of many steps is over in time.
patience :: Int
patience = 1000

pause :: Env -> Pause -> IO ()
pause env todo = case todo of
  GoOn -> return ()
  Yield count -> replicateM_ count yield
  Spin rounds -> replicateM_ rounds (modifyIORef' (envRow env) (+ 1))
  Hold time -> uninterruptibleMask_ (threadDelay time)
