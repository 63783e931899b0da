-- |
-- Module      : FromHaskell.Specialise
-- Description : Definitions of the script
--
-- A function of the program becomes a definition of the script for each shape of its arguments and of the names that it
-- closes over. What isn't known of them are the definition's parameters.
module FromHaskell.Specialise
  ( specialise
  , isPreludeFile
  , isOwnFile
  , settlePending
  ) where

import Control.Monad (forM_, unless, when)
import Data.List (find, isSuffixOf)
import qualified Data.Map.Strict as Map
import Data.Maybe (fromMaybe, isNothing)
import qualified Data.Set as Set
import System.FilePath (takeFileName)

import FromHaskell.Encode
import {-# SOURCE #-} FromHaskell.Emit (emitAction)
import {-# SOURCE #-} FromHaskell.Evaluate (evaluateBody)
import FromHaskell.Ghc
import FromHaskell.Join
import FromHaskell.Monad
import FromHaskell.Reify
import FromHaskell.Report
import FromHaskell.Script
import FromHaskell.Shape
import FromHaskell.Total
import FromHaskell.Value

-- | The definition for a function at these arguments, what is to be handed to it, and what it answers: function,
-- arguments, result type, and whether it is an action.
specialise :: Function -> [Value] -> Type -> Bool -> Translate (Name, [Expression], Outcome)
specialise f arguments result isActionFunction = do
  shape <- newShape holeNaming
  let types = argumentTypes (substituted (functionEnvironment f) (idType (functionId f))) arguments
      hints = parameterNames (functionBody f) ++ repeat "x"
  arguments' <- mapM (\(t, a, h) -> shapeOf shape h t a) (zip3 types arguments hints)
  markShape shape "//"
  f' <- shapeOfFunction shape f
  key <- keyOf shape
  holes <- holesOf shape
  masking <- holdsMaskingName shape
  when masking $ refuse CauseMaskingName ("The masking name that `mask` binds is handed to " ++ name ++ ", which calls itself.")
  known <- get worldSpecialisations
  let fullKey = show (getKey (getUnique (functionId f))) ++ name ++ key
      expressions = map holeExpression holes
  (definition, outcome) <- case Map.lookup fullKey known of
    Just (Specialisation n (Just outcome)) -> return (n, outcome)
    Just (Specialisation _ Nothing) -> refuse CauseType ("The recursive function " ++ name ++ " answers what a script can't keep: " ++ showType result ++ ".")
    Nothing -> do
      when (Map.size known > 400) $ refuse CauseForms ("The function " ++ name ++ " is needed in too many forms.")
      define f' arguments' holes result isActionFunction fullKey
  here <- place
  forM_ (zip [0 ..] expressions) $ \(i, e) ->
    when (mayThrow e) $ modify worldPending ((here, definition, i) :)
  return (definition, expressions, outcome)
 where
  name = occurrence (functionId f)

holeNaming :: String -> [Name] -> Translate Name
holeNaming hintName taken = do
  let wanted = if take 2 hintName == "ds" || null hintName then "x" else cleanName hintName
  n <- firstFree (wanted : [wanted ++ show i | i <- [1 :: Int ..]])
  modify worldAllNames (Set.insert n)
  return n
 where
  firstFree names = case names of
    n : rest
      | n `elem` taken -> firstFree rest
      | otherwise -> do
          free <- isFreeName n
          arms <- get worldArmNames
          if free && n `Set.notMember` arms then return n else firstFree rest
    [] -> return "x"

-- | Makes the definition.
define :: Function -> [Value] -> [Hole] -> Type -> Bool -> String -> Translate (Name, Outcome)
define f arguments holes result isActionFunction key = do
  definition <- freshFunction (occurrence (functionId f))
  modify worldSpecialisations (Map.insert key (Specialisation definition declared))
  outerBlock <- get worldBlock
  outerDepth <- get worldDepth
  outerNames <- get worldNames
  outerMasked <- get worldMasked
  modify worldOpen (Set.insert definition)
  put worldDepth emptyVarEnv
  arms <- get worldArmNames
  put worldNames (Set.union arms (Set.fromList (map holeName holes)))
  (body, t, outcome) <- if isActionFunction then actionBody else pureBody
  put worldBlock outerBlock
  put worldDepth outerDepth
  put worldNames outerNames
  put worldMasked outerMasked
  modify worldOpen (Set.delete definition)
  let made = Definition definition [(holeName h, holeType h) | h <- holes] t body (originOf f) (fromMaybe nowhere (definedAt (functionId f)))
  total <- get worldTotal
  unless isActionFunction $ when (isTotal (`Set.member` total) made) $ modify worldTotal (Set.insert definition)
  modify worldDefinitions (made :)
  modify worldSpecialisations (Map.insert key (Specialisation definition (Just outcome)))
  return (definition, outcome)
 where
  value = evaluateBody f arguments
  answer = if isActionFunction then fromMaybe result (ioResult result) else result
  declared = case encode answer of
    Just t -> Just (AnswersType t)
    Nothing
      | isTyVarTy answer -> Just AnswersNever
      | otherwise -> Nothing
  actionBody = do
    joined <- joinBlocks (Just answer) [value >>= emitAction (Just answer) ""]
    let t = joinedType joined
        outcome = if joinedNever joined then AnswersType t else joinedOutcome joined
    return (concat (take 1 (joinedBlocks joined)), t, outcome)
  pureBody = case encode answer of
    Nothing -> refuse CauseType ("A function answers what a script can't keep: " ++ showType answer ++ ".")
    Just t -> do
      (e, b) <- inBlock (value >>= reify t >>= hoist)
      return (maybe (retyped t b) (\x -> endBlock t x b) e, t, AnswersType t)

originOf :: Function -> String
originOf f = case definedAt (functionId f) of
  Just (Place file line _) | not (isOwnFile file) -> takeFileName file ++ ":" ++ show line
  _ -> "base: " ++ occurrence (functionId f)

-- | Whether this is a source that comes with the translator: no place of it is told.
isOwnFile :: FilePath -> Bool
isOwnFile file = isPreludeFile file || "prelude/Control/Concurrent/Async.hs" `isSuffixOf` file

-- | Whether this is the source of the prelude.
isPreludeFile :: FilePath -> Bool
isPreludeFile file = takeFileName file == "FromHaskellPrelude.hs"

parameterNames :: CoreExpr -> [String]
parameterNames e = case e of
  Lam v body -> (if isTyVar v then "t" else occurrence v) : parameterNames body
  Tick _ body -> parameterNames body
  Cast body _ -> parameterNames body
  _ -> []

-- | Looks at the arguments that may throw or not end, once all definitions are made: a function that evaluates its
-- parameter before all else evaluates it as Haskell does; at another one it is refused, or noted.
settlePending :: Translate ()
settlePending = do
  pending <- get worldPending
  definitions <- get worldDefinitions
  forM_ (reverse pending) $ \(here, name, index) -> do
    let strictIn = maybe [] strictParameters (find ((== name) . definitionName) definitions)
    when (isNothing (lookup index (filter snd (zip [0 ..] strictIn)))) $
      at here $ strictHere CauseStrict ("An argument of " ++ name ++ " is an expression that may throw or not end.")
