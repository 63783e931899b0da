-- |
-- Module      : FromHaskell.Tidy
-- Description : Names of a finished definition
--
-- Takes away bindings that nobody uses, and numbers the names of a definition again from its front, so that each is the
-- name of the source where that is free.
module FromHaskell.Tidy
  ( tidy
  ) where

import Data.Char (isDigit)
import Data.List (dropWhileEnd, nub)
import qualified Data.Map.Strict as Map
import qualified Data.Set as Set

import FromHaskell.Script

-- | The definition with unused bindings taken away and its names numbered again. The set has the names that are taken.
tidy :: Set.Set Name -> Definition -> Definition
tidy taken d0 =
  d
    { definitionParameters = [(renamed x, t) | (x, t) <- definitionParameters d]
    , definitionBody = renameBlock renamed (definitionBody d)
    }
 where
  d = d0 {definitionBody = dropUnused (definitionBody d0)}
  order = nub (map fst (definitionParameters d) ++ boundInBlock (definitionBody d))
  names = Map.fromList (number taken order)
  renamed x = Map.findWithDefault x x names

number :: Set.Set Name -> [Name] -> [(Name, Name)]
number = go
 where
  go _ [] = []
  go used (x : rest) =
    let new = freeName used (base x)
     in (x, new) : go (Set.insert new used) rest
  freeName used x = head (filter (`Set.notMember` used) (x : [x ++ show i | i <- [1 :: Int ..]]))
  base x = case dropWhileEnd isDigit x of
    "" -> x
    b -> b

dropUnused :: Block -> Block
dropUnused b
  | b' == b = b
  | otherwise = dropUnused b'
 where
  b' = dropIn (Set.fromList (freeOfBlock b)) b

dropIn :: Set.Set Name -> Block -> Block
dropIn used = concatMap statement
 where
  statement s@(Let x _) = [s | x `Set.member` used]
  statement (Do (Just x) a t) = [Do (if x `Set.member` used then Just x else Nothing) (action a) t]
  statement (Do Nothing a t) = [Do Nothing (action a) t]
  action a = case a of
    Form ps -> Form (map piece ps)
    Branch c -> Branch (fmap (dropIn used) c)
    CallAction _ _ -> a
  piece (Body b) = Body (dropIn used b)
  piece p = p

renameBlock :: (Name -> Name) -> Block -> Block
renameBlock r = map statement
 where
  statement (Let x e) = Let (r x) (renameExpression r e)
  statement (Do x a t) = Do (fmap r x) (action a) t
  action a = case a of
    Form ps -> Form (map piece ps)
    CallAction f as -> CallAction f (map (renameExpression r) as)
    Branch c -> Branch (renameChoice r (renameBlock r) c)
  piece p = case p of
    Argument e -> Argument (renameExpression r e)
    Body b -> Body (renameBlock r b)
    Binder x -> Binder (r x)
    _ -> p

renameChoice :: (Name -> Name) -> (a -> a) -> Choice a -> Choice a
renameChoice r inside c = case c of
  ChooseIf x a b -> ChooseIf (renameExpression r x) (inside a) (inside b)
  ChooseCase t x arms -> ChooseCase t (renameExpression r x) (arm arms)
  Evaluated x t e a -> Evaluated (r x) t (renameExpression r e) (inside a)
 where
  arm arms = case arms of
    MaybeArms a x b -> MaybeArms (inside a) (r x) (inside b)
    EitherArms x a y b -> EitherArms (r x) (inside a) (r y) (inside b)
    ListArms a x y b -> ListArms (inside a) (r x) (r y) (inside b)

renameExpression :: (Name -> Name) -> Expression -> Expression
renameExpression r = go
 where
  go e = case e of
    Variable x -> Variable (r x)
    Binary o a b -> Binary o (go a) (go b)
    Builtin f as -> Builtin f (map go as)
    JustOf a -> JustOf (go a)
    LeftOf s t a -> LeftOf s t (go a)
    RightOf s t a -> RightOf s t (go a)
    ListOf as -> ListOf (map go as)
    Pair a b -> Pair (go a) (go b)
    Decide t c -> Decide t (renameChoice r go c)
    Call f p as t -> Call f p (map go as) t
    Raise t a -> Raise t (go a)
    _ -> e

boundInBlock :: Block -> [Name]
boundInBlock = concatMap statement
 where
  statement (Let x e) = boundIn e ++ [x]
  statement (Do x a _) = maybe [] pure x ++ action a
  action a = case a of
    Form ps -> concatMap piece ps
    CallAction _ as -> concatMap boundIn as
    Branch c -> boundInChoice boundInBlock c
  piece p = case p of
    Argument e -> boundIn e
    Body b -> boundInBlock b
    Binder x -> [x]
    _ -> []

boundInChoice :: (a -> [Name]) -> Choice a -> [Name]
boundInChoice inside c = case c of
  ChooseIf x a b -> boundIn x ++ inside a ++ inside b
  ChooseCase _ x arms ->
    boundIn x ++ case arms of
      MaybeArms a y b -> inside a ++ [y] ++ inside b
      EitherArms y a z b -> [y] ++ inside a ++ [z] ++ inside b
      ListArms a y z b -> inside a ++ [y, z] ++ inside b
  Evaluated x _ e a -> boundIn e ++ [x] ++ inside a

boundIn :: Expression -> [Name]
boundIn e = case e of
  Binary _ a b -> boundIn a ++ boundIn b
  Builtin _ as -> concatMap boundIn as
  JustOf a -> boundIn a
  LeftOf _ _ a -> boundIn a
  RightOf _ _ a -> boundIn a
  ListOf as -> concatMap boundIn as
  Pair a b -> boundIn a ++ boundIn b
  Decide _ c -> boundInChoice boundIn c
  Call _ _ as _ -> concatMap boundIn as
  Raise _ a -> boundIn a
  _ -> []
