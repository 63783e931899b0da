-- | What a script printed by @conc_run haskell@ imports: the forms of scripts, the values of their expressions, and the
-- 'run' that runs such a script many times and counts what it came to.
--
-- Each form is the function of @base@ or @async@ of its name. What is added is what a script needs to be run again and
-- again in one process: the environment of its thread, and points at which a run is made to wait a little. Expressions are
-- strict and go from the left to the right, as those of scripts do.
module Litmus
  ( -- * Running
    run
  , runScripts
  , Env

    -- * Points
  , at
  , end

    -- * Types
  , Int
  , Bool (..)
  , Text
  , ThreadId
  , SomeException
  , Maybe (..)
  , Either (..)
  , MVar
  , Async
  , IO

    -- * Actions
  , module Litmus.Actions

    -- * Expressions
  , module Litmus.Values
  )
where

import Control.Concurrent.Async (Async)
import Control.Concurrent.MVar (MVar)
import Control.Exception (SomeException)
import Data.Text (Text)
import Litmus.Actions
import Litmus.Main (run, runScripts)
import Litmus.Point (at, end)
import Litmus.Run (Env, ThreadId)
import Litmus.Values
