{-# LANGUAGE LambdaCase #-}

-- |
-- Module      : FromHaskell.Force
-- Description : Values that are needed
--
-- Thunks and choices: the parts of evaluation that look into no expression.
module FromHaskell.Force
  ( force
  , thunk
  , overChoice
  , constructor
  , unitValue
  , truthValue
  , justValue
  , nothingValue
  , residual
  , notKnown
  ) where

import Control.Monad.IO.Class (liftIO)
import Data.IORef
import qualified Data.Map.Strict as Map

import FromHaskell.Ghc
import {-# SOURCE #-} FromHaskell.Keep (keptValue)
import FromHaskell.Known (refusedNames)
import FromHaskell.Monad
import FromHaskell.Report
import FromHaskell.Script
import FromHaskell.Value

-- | The value, evaluated as far as its outermost constructor, choice or residual expression.
force :: Value -> Translate Value
force = \case
  Thunk ref ->
    liftIO (readIORef ref) >>= \case
      Ready v -> return v
      waiting@(Waiting act) -> do
        needsItself <- suspended (refuse CauseEndless "A value needs itself before it is known.")
        liftIO (writeIORef ref (Waiting needsItself))
        v <- (liftIO act >>= force) `finallyDo` liftIO (writeIORef ref waiting)
        modify worldUndo (writeIORef ref waiting :)
        liftIO (writeIORef ref (Ready v))
        return v
  v -> return v

-- | A value that is evaluated where it is needed, with this place as its own.
thunk :: Translate Value -> Translate Value
thunk act = do
  here <- place
  waiting <- suspended (at here act)
  Thunk <$> liftIO (newIORef (Waiting waiting))

-- | A step that goes into each branch of a choice.
overChoice :: (Value -> Translate Value) -> Choice Value -> Translate Value
overChoice step choice = Chosen <$> traverse step choice

-- | A constructor that the evaluator makes itself.
constructor :: String -> Translate DataCon
constructor name = do
  known <- get worldConstructors
  maybe (refuse CauseEvaluator ("There is no constructor " ++ name ++ ".")) return (Map.lookup name known)

-- | The value of the type ().
unitValue :: Translate Value
unitValue = (`Constructed` []) <$> constructor "()"

-- | A value of Bool.
truthValue :: Bool -> Translate Value
truthValue b = (`Constructed` []) <$> constructor (show b)

-- | Values of Maybe.
justValue :: Value -> Translate Value
justValue x = (`Constructed` [x]) <$> constructor "Just"

nothingValue :: Translate Value
nothingValue = (`Constructed` []) <$> constructor "Nothing"

-- | What only a run knows, but for (), which has one value.
residual :: Expression -> ScriptType -> Translate Value
residual _ UnitType = unitValue
residual e (KeptType name) = keptValue e name
residual e t = return (Residual e t)

-- | Gives up at a name of which nothing is known.
notKnown :: Id -> Translate a
notKnown name = case refusedNames (occurrence name) of
  Just (cause, detail) -> refuse cause detail
  Nothing -> refuse CauseLibrary ("`" ++ occurrence name ++ "` of " ++ moduleOf name ++ " has no counterpart in a script.")
