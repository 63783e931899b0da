-- |
-- Module      : FromHaskell.Keep
-- Description : Functions and actions that cells keep
--
-- A cell keeps a function or an action as a tag, which says of which of all those of its type that the program ever keeps
-- it is, with what only a run knows of it. Which ones there are is known when the whole program has been translated. So it
-- is translated in rounds, each with those that the rounds before have found, until one finds no other.
module FromHaskell.Keep
  ( kept
  , keptValue
  , settledTypes
  , inRounds
  ) where

import qualified Control.Exception as Exception
import Control.Monad (unless, when)
import Data.IORef
import Data.List (nubBy)
import qualified Data.Map.Strict as Map
import qualified Data.Set as Set

import FromHaskell.Join
import FromHaskell.Monad
import FromHaskell.Report
import FromHaskell.Script
import FromHaskell.Value

-- | The most rounds.
mostRounds :: Int
mostRounds = 12

-- | The expression that is kept for a function or an action of the type of this name.
kept :: String -> Value -> Translate Expression
kept name value = do
  tree <- treeOf value
  before <- get worldKept
  now <- get worldKeptNow
  let templates = Map.findWithDefault [] name before
      others = [l | l <- nubBy sameKey (leavesOf tree), not (any (sameKey l) (templates ++ Map.findWithDefault [] name now))]
      within = namesBelow (Map.unionWith (++) before now) (concatMap namesIn others)
  when (name `Set.member` within) $
    refuse CauseKept ("A function or an action of the type " ++ name ++ " is kept, which holds one of the same type.")
  unless (null others) $ modify worldKeptNow (Map.insertWith (flip (++)) name others)
  return (answerOf templates (typeOfTemplates templates) (KeptType name) tree)
 where
  sameKey a b = templateKey a == templateKey b
  namesIn template = concatMap (keptIn . snd) (templateHoles template)

-- | The function or action of the type of this name that an expression carries. Where none was kept yet, none comes.
keptValue :: Expression -> String -> Translate Value
keptValue e name = do
  before <- get worldKept
  case Map.findWithDefault [] name before of
    [] -> return (Throwing (Builtin "ErrorCall" [Text "nothing is kept here"]))
    templates -> fromTemplates e (typeOfTemplates templates) (KeptType name) templates

-- | The names of kept types that stand in a type.
keptIn :: ScriptType -> [String]
keptIn t = case t of
  KeptType name -> [name]
  PairType a b -> keptIn a ++ keptIn b
  EitherType a b -> keptIn a ++ keptIn b
  MaybeType a -> keptIn a
  ListType a -> keptIn a
  CellType a -> keptIn a
  _ -> []

-- | These names, and those of all that is kept in what they name.
namesBelow :: Map.Map String [Template] -> [String] -> Set.Set String
namesBelow known = go Set.empty
 where
  go seen names = case names of
    [] -> seen
    n : rest
      | n `Set.member` seen -> go seen rest
      | otherwise -> go (Set.insert n seen) (concat [keptIn t | l <- Map.findWithDefault [] n known, (_, t) <- templateHoles l] ++ rest)

-- | The definition with the types of what is kept, which are types of the language.
settledTypes :: Map.Map String [Template] -> Definition -> Definition
settledTypes known = overTypes settled
 where
  settled t = case t of
    KeptType name -> settled (typeOfTemplates (Map.findWithDefault [] name known))
    PairType a b -> PairType (settled a) (settled b)
    EitherType a b -> EitherType (settled a) (settled b)
    MaybeType a -> MaybeType (settled a)
    ListType a -> ListType (settled a)
    CellType a -> CellType (settled a)
    _ -> t

-- | Translates in rounds. What a round tells counts where it finds nothing more that is kept.
inRounds :: IORef World -> Translate a -> IO a
inRounds current act = do
  notes <- readIORef current >>= readIORef . worldNotes
  let go left = do
        world <- readIORef current
        result <- Exception.try (runTranslate world act)
        found <- readIORef (worldKeptNow world)
        here <- readIORef (worldEntry world)
        if Map.null found
          then either (Exception.throwIO :: Refusal -> IO a) return result
          else do
            when (left == 0) $
              Exception.throwIO (Refusal here CauseForms ("The cells keep functions or actions in too many forms: " ++ unwords (Map.keys found) ++ "."))
            nextRound world found notes >>= writeIORef current
            go (left - 1)
  go mostRounds

-- | The world of the next round.
nextRound :: World -> Map.Map String [Template] -> [Note] -> IO World
nextRound world found notes = do
  before <- readIORef (worldKept world)
  arms <- readIORef (worldArmNames world)
  next <- newWorld (worldSettings world)
  writeIORef (worldKept next) (Map.unionWith (++) before found)
  writeIORef (worldArmNames next) arms
  writeIORef (worldNotes next) notes
  return next
