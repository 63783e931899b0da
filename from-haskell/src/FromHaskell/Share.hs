-- |
-- Module      : FromHaskell.Share
-- Description : Expressions that stand twice
--
-- Names, by @let@, what a block would compute more than once. Only what can't throw and ends is named, so it doesn't
-- matter where it is computed.
module FromHaskell.Share
  ( share
  ) where

import Data.List (maximumBy)
import qualified Data.Map.Strict as Map
import Data.Ord (comparing)
import qualified Data.Set as Set

import FromHaskell.Report (nowhere)
import FromHaskell.Script

-- | The definition with a name for each larger expression that stands twice in it.
share :: Definition -> Definition
share d = d {definitionBody = go (40 :: Int) names0 (definitionBody d)}
 where
  names0 = ["part" ++ show i | i <- [1 :: Int ..]]
  parameters = Set.fromList (map fst (definitionParameters d))
  go rounds names body = case (names, shareOnce parameters names body) of
    (_ : rest, Just body') | rounds > 0 -> go (rounds - 1) rest body'
    _ -> body

-- | One expression more that has a name, in this block or in one inside of it.
shareOnce :: Set.Set Name -> [Name] -> Block -> Maybe Block
shareOnce scope names block = case candidates of
  [] -> inside scope names block
  _ -> Just (named (snd (maximumBy (comparing fst) candidates)))
 where
  counts = Map.fromListWith (+) [(e, 1 :: Int) | e <- concatMap worth (expressionsOf block)]
  candidates = [((size e * (n - 1), size e), (e, i)) | (e, n) <- Map.toList counts, n > 1, Just i <- [place e]]
  -- The first statement that has it, where all its names are known in front of that.
  place e = case [i | (i, s) <- zip [0 ..] block, e `elem` concatMap subexpressions (expressionsOf [s])] of
    i : _ | all (`Set.member` scopeAt i) (variablesOf e) -> Just i
    _ -> Nothing
  scopeAt i = Set.union scope (Set.fromList (concatMap bound (take i block)))
  name = concat (take 1 names)
  named (e, i) = take i block ++ [Let name e] ++ definitionBody (overExpressions (replace e) (wrapped (drop i block)))
  replace e x = if x == e then Variable name else x

-- | The same in the blocks inside.
inside :: Set.Set Name -> [Name] -> Block -> Maybe Block
inside scope names block = case block of
  [] -> Nothing
  s : rest -> case statement s of
    Just s' -> Just (s' : rest)
    Nothing -> (s :) <$> inside (Set.union scope (Set.fromList (bound s))) names rest
 where
  statement s = case s of
    Let _ _ -> Nothing
    Do x a t -> (\a' -> Do x a' t) <$> action a
  action a = case a of
    CallAction _ _ -> Nothing
    Form ps -> Form <$> pieces Set.empty ps
    Branch (ChooseIf c p q) -> Branch <$> firstOf (\p' -> ChooseIf c p' q) (ChooseIf c p) (again [] p) (again [] q)
    Branch (ChooseCase t c arms) -> Branch . ChooseCase t c <$> inArms arms
    Branch Evaluated {} -> Nothing
  pieces binders ps = case ps of
    [] -> Nothing
    Body b : rest | Just b' <- again (Set.toList binders) b -> Just (Body b' : rest)
    p@(Binder x) : rest -> (p :) <$> pieces (Set.insert x binders) rest
    p : rest -> (p :) <$> pieces binders rest
  inArms arms = case arms of
    MaybeArms a x b -> firstOf (\a' -> MaybeArms a' x b) (MaybeArms a x) (again [] a) (again [x] b)
    EitherArms x a y b -> firstOf (\a' -> EitherArms x a' y b) (EitherArms x a y) (again [x] a) (again [y] b)
    ListArms a x y b -> firstOf (\a' -> ListArms a' x y b) (ListArms a x y) (again [] a) (again [x, y] b)
  again binders = shareOnce (Set.union scope (Set.fromList binders)) names
  firstOf :: (Block -> a) -> (Block -> a) -> Maybe Block -> Maybe Block -> Maybe a
  firstOf f g p q = case p of
    Just p' -> Just (f p')
    Nothing -> g <$> q

wrapped :: Block -> Definition
wrapped b = Definition "" [] UnitType b "" nowhere

bound :: Statement -> [Name]
bound s = case s of
  Let x _ -> [x]
  Do (Just x) _ _ -> [x]
  Do Nothing _ _ -> []

-- | The expressions inside of this one that are worth a name.
worth :: Expression -> [Expression]
worth = filter isWorth . subexpressions
 where
  isWorth e = not (mayThrow e) && not (null (variablesOf e)) && large e
  large e = case e of
    Builtin f [x] | f `elem` ["fst", "snd"] -> size x > 1
    Builtin _ _ -> size e > 3
    Binary {} -> size e > 3
    Decide _ _ -> closed e
    _ -> False
  -- A case that binds names is shared whole or not at all.
  closed e = size e > 3

subexpressions :: Expression -> [Expression]
subexpressions e = e : concatMap subexpressions (partsOf e)

size :: Expression -> Int
size e = 1 + sum (map size (partsOf e))
