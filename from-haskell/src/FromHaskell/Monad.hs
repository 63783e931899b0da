{-# LANGUAGE DerivingStrategies #-}
{-# LANGUAGE GeneralizedNewtypeDeriving #-}

-- |
-- Module      : FromHaskell.Monad
-- Description : The state of a translation
--
-- What a translation knows and has made so far, and how it gives up: by a 'Refusal', by a dead end ('endsHere') where a
-- block has thrown and nothing comes behind it, or by 'tooDeep' where a trial evaluation goes on for too long.
module FromHaskell.Monad
  ( Translate
  , World (..)
  , Settings (..)
  , newWorld
  , runTranslate
  , suspended
  , get
  , put
  , modify
  , settingsOf

    -- * Giving up
  , refuse
  , refuseAt
  , endsHere
  , tooDeep
  , catchTooDeep
  , attempt
  , trial
  , finallyDo

    -- * Notes
  , note
  , noteAt
  , place
  , at

    -- * Statements and names
  , emit
  , inBlock
  , fresh
  , freshArm
  , freshFunction
  , cleanName
  , isFreeName
  ) where

import qualified Control.Exception as Exception
import Control.Monad (unless)
import Control.Monad.IO.Class (MonadIO, liftIO)
import Control.Monad.Trans.Reader (ReaderT (..), ask)
import Data.Char (isAlpha, isAlphaNum, isUpper)
import Data.IORef
import qualified Data.Map.Strict as Map
import qualified Data.Set as Set

import FromHaskell.Ghc (DataCon, Id, VarEnv, emptyVarEnv, getKey, getUnique)
import FromHaskell.Language (reservedWords)
import FromHaskell.Report
import FromHaskell.Script
import FromHaskell.Value

-- | How a translation is asked for.
newtype Settings = Settings
  { settingStrict :: Bool   -- ^ evaluations that Haskell may leave out are noted, and not refused
  }

-- | All that a translation keeps.
data World = World
  { worldSettings :: Settings
  , worldPlace :: IORef Place                                -- ^ where the evaluation is in the source
  , worldEntry :: IORef Place                                -- ^ where the action that is asked is defined
  , worldBlock :: IORef [Statement]                          -- ^ of the block that is being made, the last first
  , worldNames :: IORef (Set.Set Name)                       -- ^ names of the definition that is being made
  , worldAllNames :: IORef (Set.Set Name)                    -- ^ names of all definitions
  , worldFunctions :: IORef (Set.Set Name)
  , worldDefinitions :: IORef [Definition]                   -- ^ the last first
  , worldSpecialisations :: IORef (Map.Map String Specialisation)
  , worldDepth :: IORef (VarEnv Int)                         -- ^ how often each function is inside of itself
  , worldWork :: IORef Int                                   -- ^ calls of recursive functions so far
  , worldWorkLimit :: IORef (VarEnv Int)
  , worldProgram :: IORef (VarEnv Function)                  -- ^ the functions that were read
  , worldPrelude :: IORef (Map.Map String Function)
  , worldConstants :: IORef (VarEnv Value)                   -- ^ constants that were evaluated
  , worldNotes :: IORef [Note]                               -- ^ the last first
  , worldThrown :: IORef (Set.Set String)                    -- ^ types of exceptions that became ErrorCalls
  , worldLeftOut :: IORef [(Place, String)]                  -- ^ handlers that were left out, by their type
  , worldErrorHandlers :: IORef [Place]                      -- ^ handlers of ErrorCall
  , worldCatchAll :: IORef [Place]                           -- ^ handlers of all exceptions
  , worldConstructors :: IORef (Map.Map String DataCon)      -- ^ those that the evaluator makes itself
  , worldStackThrown :: IORef [Place]                        -- ^ where `error` may throw in the script
  , worldStackShown :: IORef [Place]                         -- ^ where the text of an unknown exception is shown
  , worldMasked :: IORef Bool                                -- ^ a mask stands around this place
  , worldThread :: IORef Int                                 -- ^ which thread's text this is, main being 0
  , worldThreads :: IORef Int
  , worldTotal :: IORef (Set.Set Name)                       -- ^ pure functions that never throw and always end
  , worldArmNames :: IORef (Set.Set Name)                    -- ^ names that the alternatives of choices bind, in any definition
  , worldOpen :: IORef (Set.Set Name)                        -- ^ definitions that are being made
  , worldThrowers :: IORef (Set.Set String)                  -- ^ forms by which an exception comes from outside
  , worldUndo :: IORef [IO ()]                               -- ^ what takes back the evaluations of a trial, the last first
  , worldPending :: IORef [(Place, Name, Int)]               -- ^ arguments that may throw: of which function, which one
  , worldPrints :: IORef [(Int, Bool, Place)]                -- ^ prints: in which thread, masked or not
  , worldKept :: IORef (Map.Map String [Template])           -- ^ functions and actions that cells keep, by their type, as rounds before have found them
  , worldKeptNow :: IORef (Map.Map String [Template])        -- ^ others that this round has found
  }

-- | A translation that is going on.
newtype Translate a = Translate (ReaderT World IO a)
  deriving newtype (Applicative, Functor, Monad, MonadIO)

-- | Nothing is known and nothing made.
newWorld :: Settings -> IO World
newWorld settings =
  World settings
    <$> newIORef nowhere
    <*> newIORef nowhere
    <*> newIORef []
    <*> newIORef Set.empty
    <*> newIORef Set.empty
    <*> newIORef Set.empty
    <*> newIORef []
    <*> newIORef Map.empty
    <*> newIORef emptyVarEnv
    <*> newIORef 0
    <*> newIORef emptyVarEnv
    <*> newIORef emptyVarEnv
    <*> newIORef Map.empty
    <*> newIORef emptyVarEnv
    <*> newIORef []
    <*> newIORef Set.empty
    <*> newIORef []
    <*> newIORef []
    <*> newIORef []
    <*> newIORef Map.empty
    <*> newIORef []
    <*> newIORef []
    <*> newIORef False
    <*> newIORef 0
    <*> newIORef 0
    <*> newIORef Set.empty
    <*> newIORef Set.empty
    <*> newIORef Set.empty
    <*> newIORef Set.empty
    <*> newIORef []
    <*> newIORef []
    <*> newIORef []
    <*> newIORef Map.empty
    <*> newIORef Map.empty

-- | Runs a translation in this world.
runTranslate :: World -> Translate a -> IO a
runTranslate world (Translate r) = runReaderT r world

world_ :: Translate World
world_ = Translate ask

withWorld :: (World -> IO a) -> Translate a
withWorld f = world_ >>= liftIO . f

-- | The translation as an action that needs no world any more.
suspended :: Translate a -> Translate (IO a)
suspended act = withWorld (\w -> return (runTranslate w act))

-- | The value of a part of the world now.
get :: (World -> IORef a) -> Translate a
get part = withWorld (readIORef . part)

-- | A new value of a part.
put :: (World -> IORef a) -> a -> Translate ()
put part value = withWorld (\w -> writeIORef (part w) value)

-- | How the translation was asked for.
settingsOf :: Translate Settings
settingsOf = withWorld (return . worldSettings)

-- | A part of the world, changed.
modify :: (World -> IORef a) -> (a -> a) -> Translate ()
modify part f = withWorld (\w -> modifyIORef' (part w) f)

----------------------------------------------------------------------------------------------------------------------

data Dead = Dead
  deriving stock Show

instance Exception.Exception Dead

newtype TooDeep = TooDeep Int
  deriving stock Show

instance Exception.Exception TooDeep

-- | Gives up: the program is refused here.
refuse :: Cause -> String -> Translate a
refuse cause detail = do
  here <- place
  refuseAt here cause detail

-- | Gives up: the program is refused at this place.
refuseAt :: Place -> Cause -> String -> Translate a
refuseAt here cause detail = liftIO (Exception.throwIO (Refusal here cause detail))

-- | The block that is being made has thrown: nothing comes behind it.
endsHere :: Translate a
endsHere = liftIO (Exception.throwIO Dead)

-- | The evaluation of this function goes on for too long.
tooDeep :: Id -> Translate a
tooDeep f = liftIO (Exception.throwIO (TooDeep (getKey (getUnique f))))

-- | What is done where an evaluation goes on for too long. The function's answer says whether it is this one's.
catchTooDeep :: Id -> Translate a -> (Bool -> Translate a) -> Translate a
catchTooDeep f act handler = withWorld $ \w ->
  runTranslate w act `Exception.catch` \(TooDeep key) -> runTranslate w $ do
    let own = key == getKey (getUnique f)
    if own then handler True else handler False >> liftIO (Exception.throwIO (TooDeep key))

-- | The refusal in place of the answer.
attempt :: Translate a -> Translate (Either Refusal a)
attempt act = withWorld (Exception.try . flip runTranslate act)

-- | What is to be done where the action gives up.
finallyDo :: Translate a -> Translate () -> Translate a
finallyDo act onFailure = withWorld (\w -> runTranslate w act `Exception.onException` runTranslate w onFailure)

-- | An evaluation that may be given up: then all that it wrote is taken back.
trial :: Translate a -> Translate a
trial act = do
  back <- restoring
  outer <- get worldUndo
  put worldUndo []
  answer <- act `finallyDo` (get worldUndo >>= liftIO . sequence_ >> put worldUndo outer >> back)
  modify worldUndo (++ outer)
  return answer

restoring :: Translate (Translate ())
restoring = do
  resets <-
    sequence
      [ kept worldBlock
      , kept worldNames
      , kept worldDepth
      , kept worldWorkLimit
      , kept worldSpecialisations
      , kept worldDefinitions
      , kept worldFunctions
      , kept worldNotes
      , kept worldPlace
      , kept worldThrown
      , kept worldLeftOut
      , kept worldErrorHandlers
      , kept worldCatchAll
      , kept worldStackThrown
      , kept worldStackShown
      , kept worldPrints
      , kept worldMasked
      , kept worldThread
      , kept worldTotal
      , kept worldPending
      , kept worldOpen
      , kept worldThrowers
      , kept worldKeptNow
      ]
  return (sequence_ resets)
 where
  kept :: (World -> IORef a) -> Translate (Translate ())
  kept part = put part <$> get part

----------------------------------------------------------------------------------------------------------------------

-- | Tells a difference at this place.
note :: NoteClass -> String -> Translate ()
note kind detail = do
  here <- place
  noteAt here kind detail

-- | Tells a difference at the place, once.
noteAt :: Place -> NoteClass -> String -> Translate ()
noteAt here kind detail = do
  let n = Note here kind detail
  told <- get worldNotes
  unless (n `elem` told) $ put worldNotes (n : told)

-- | Where the evaluation is in the source.
place :: Translate Place
place = get worldPlace

-- | The action with this as its place.
at :: Place -> Translate a -> Translate a
at there act = do
  here <- place
  put worldPlace there
  answer <- act
  put worldPlace here
  return answer

-- | One statement more in the block that is being made.
emit :: Statement -> Translate ()
emit s = modify worldBlock (s :)

-- | What is made by the action, as a block of its own, and its answer unless the block throws in any case.
inBlock :: Translate a -> Translate (Maybe a, Block)
inBlock act = do
  outer <- get worldBlock
  here <- place
  put worldBlock []
  answer <- withWorld (\w -> (Just <$> runTranslate w act) `Exception.catch` \Dead -> return Nothing)
  made <- get worldBlock
  put worldBlock outer
  put worldPlace here
  return (answer, reverse made)

-- | The text as a name of the language.
cleanName :: String -> Name
cleanName s = case dropWhile (not . isAlpha) (map legal s) of
  "" -> "x"
  name@(c : _)
    | isUpper c -> 'x' : name
    | otherwise -> name
 where
  legal c = if isAlphaNum c || c == '_' || c == '\'' then c else '_'

-- | Whether a definition's name may be this: no word, no function.
isFreeName :: Name -> Translate Bool
isFreeName x = do
  functions <- get worldFunctions
  return (x `Set.notMember` functions && x `Set.notMember` reservedWords)

-- | A variable's name that is free, like this one.
fresh :: String -> Translate Name
fresh hint = do
  used <- get worldNames
  functions <- get worldFunctions
  let wanted = if take 2 hint == "ds" || null hint then "x" else cleanName hint
      free x = all (x `Set.notMember`) [used, functions, reservedWords]
      name = head (filter free (wanted : [wanted ++ show i | i <- [1 :: Int ..]]))
  modify worldNames (Set.insert name)
  modify worldAllNames (Set.insert name)
  return name

-- | A name that an alternative of a choice binds. A choice may go into another definition, so no parameter is called so.
freshArm :: String -> Translate Name
freshArm hint = do
  name <- fresh hint
  modify worldArmNames (Set.insert name)
  return name

-- | A function's name that is free, like this one.
freshFunction :: String -> Translate Name
freshFunction hint = do
  used <- get worldAllNames
  functions <- get worldFunctions
  let wanted = cleanName hint
      free x = all (x `Set.notMember`) [used, functions, reservedWords]
      name = head (filter free (wanted : [wanted ++ show i | i <- [2 :: Int ..]]))
  modify worldFunctions (Set.insert name)
  return name
