-- |
-- Module      : FromHaskell.Join
-- Description : Where blocks meet
--
-- Branches, handlers and the ends of functions: the results of blocks that meet have one type of the script, or what is
-- known of each is kept beside the script as a template, and each block hands on what isn't known, with a tag where the
-- templates differ.
module FromHaskell.Join
  ( Joined (..)
  , joinBlocks
  , joinBlocksAt
  , rebuild
  , emitJoined
  , Tree
  , treeOf
  , leavesOf
  , answerOf
  , fromTemplates
  , typeOfTemplates
  ) where

import Control.Monad (when)
import Data.List (findIndex, nubBy)
import qualified Data.Map.Strict as Map
import Data.Maybe (fromMaybe, isNothing)

import FromHaskell.Encode
import FromHaskell.Force
import FromHaskell.Ghc (Type)
import FromHaskell.Monad
import FromHaskell.Reify
import FromHaskell.Report
import FromHaskell.Script
import FromHaskell.Shape
import FromHaskell.Value

-- | Blocks that have met.
data Joined = Joined
  { joinedBlocks :: [Block]
  , joinedType :: ScriptType
  , joinedOutcome :: Outcome
  , joinedNever :: Bool        -- ^ none of them ends by a value
  }

data Tree
  = Leaf String [Hole] Value
  | Node (Choice Tree)

-- | Makes the blocks, whose results are of this type.
joinBlocks :: Maybe Type -> [Translate Value] -> Translate Joined
joinBlocks known = joinBlocksAt (known >>= encode)

-- | The same for results that have this type of the script, where they have one.
joinBlocksAt :: Maybe ScriptType -> [Translate Value] -> Translate Joined
joinBlocksAt known acts = case known of
  Just t -> do
    made <- mapM (\act -> inBlock (act >>= expressionWhereUsed "The answer of a block" t)) acts
    let blocks = [maybe (retyped t b) (\e -> endBlock t e b) answer | (answer, b) <- made]
    return (Joined blocks t (AnswersType t) (all (isNothing . fst) made))
  Nothing -> do
    made <- mapM (\act -> inBlock (act >>= treeOf)) acts
    let leaves = [l | (Just tree, _) <- made, l <- leavesOf tree]
        templates = nubBy (\a b -> templateKey a == templateKey b) leaves
        t = typeOfTemplates templates
    blocks <- mapM (ended templates t) made
    return (Joined blocks t (AnswersTemplates t templates) (all (isNothing . fst) made))
 where
  ended templates t (answer, b) = case answer of
    Nothing -> return (retyped t b)
    Just tree -> do
      (e, more) <- inBlock (hoist (answerOf templates t t tree))
      return (maybe (retyped t (b ++ more)) (\x -> endBlock t x (b ++ more)) e)

-- | The type of what goes on of a value that has one of these templates.
typeOfTemplates :: [Template] -> ScriptType
typeOfTemplates templates
  | null templates = UnitType
  | otherwise = foldr1 EitherType (map (pairType . map snd . templateHoles) templates)

-- | What is known of a value, and of each that it can be.
treeOf :: Value -> Translate Tree
treeOf value0 = do
  value <- force value0
  case value of
    Chosen choice -> Node <$> traverse treeOf choice
    _ -> do
      shape <- newShape (\h _ -> fresh (if null h then "h" else h))
      value' <- shapeOf shape "" Nothing value
      key <- keyOf shape
      holes <- holesOf shape
      masking <- holdsMaskingName shape
      when masking $ refuse CauseMaskingName "A masking name leaves its mask."
      when (any (mayThrow . holeExpression) holes) $ strictHere CauseStrict "What a block answers has a part that may throw or not end."
      return (Leaf key holes value')

-- | A template for each value that it can be.
leavesOf :: Tree -> [Template]
leavesOf tree = case tree of
  Leaf key holes value -> [Template key [(holeName h, holeType h) | h <- holes] value]
  Node choice -> concatMap leavesOf (foldr (:) [] choice)

-- | The expression that carries what isn't known of a value, with a tag that says which template it has: the templates,
-- their type, and the type by which it goes.
answerOf :: [Template] -> ScriptType -> ScriptType -> Tree -> Expression
answerOf templates t name tree = case tree of
  Node choice -> decide name (fmap (answerOf templates t name) choice)
  Leaf key holes _ -> tagged (position key) (length templates) t (carried (map holeExpression holes))
 where
  position key = fromMaybe 0 (findIndex ((== key) . templateKey) templates)
  carried [] = Unit
  carried es = foldr1 pairOf es
  tagged i n s e = case s of
    _ | n == (1 :: Int) -> e
    EitherType l r
      | i == (0 :: Int) -> LeftOf l r e
      | otherwise -> RightOf l r (tagged (i - 1) (n - 1) r e)
    _ -> e

-- | The value that came out of blocks that met, as an expression of this type.
rebuild :: Expression -> Outcome -> Translate Value
rebuild e outcome = case outcome of
  AnswersType t -> residual e t
  AnswersNever -> refuse CauseEvaluator "The answer of what never answers."
  AnswersTemplates t templates -> fromTemplates e t t templates

-- | The value whose holes and tag an expression carries: the expression, the templates' type, the type by which it goes,
-- and the templates.
fromTemplates :: Expression -> ScriptType -> ScriptType -> [Template] -> Translate Value
fromTemplates e t name templates = case (templates, t) of
  ([one], _) -> filled e one
  (one : rest, EitherType _ r) -> do
    p <- freshArm "p"
    q <- freshArm "q"
    yes <- filled (Variable p) one
    no <- fromTemplates (Variable q) r r rest
    return (Chosen (ChooseCase name e (EitherArms p yes q no)))
  _ -> refuse CauseEvaluator "What came out of a block."

filled :: Expression -> Template -> Translate Value
filled e template = substituteHoles (Map.fromList (zip (map fst (templateHoles template)) (carried e (templateHoles template)))) (templateValue template)
 where
  carried x holes = case holes of
    [] -> []
    [_] -> [x]
    _ : rest -> first x : carried (second x) rest

-- | A form whose answer is that of its blocks.
emitJoined :: String -> Maybe Type -> [Translate Value] -> ([Block] -> Action) -> Translate Value
emitJoined hintName known acts make = do
  joined <- joinBlocks known acts
  x <- fresh hintName
  emit (Do (Just x) (make (joinedBlocks joined)) (joinedType joined))
  if joinedNever joined then endsHere else rebuild (Variable x) (joinedOutcome joined)
