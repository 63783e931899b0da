-- |
-- Module      : FromHaskell.Limits
-- Description : What the language bounds
--
-- A scope has at most 64 names, and a type at most 64 nodes.
module FromHaskell.Limits
  ( beyondLimits
  ) where

import FromHaskell.Script

-- | Which limit of the language a definition passes, if any.
beyondLimits :: Definition -> Maybe String
beyondLimits d
  | names > 64 = Just ("The definition " ++ definitionName d ++ " has " ++ show names ++ " names in a scope.")
  | any ((> 64) . nodes) (definitionResult d : map snd (definitionParameters d) ++ typesIn (definitionBody d)) = Just ("The definition " ++ definitionName d ++ " has a type of more than 64 nodes.")
  | otherwise = Nothing
 where
  names = namesInBlock (length (definitionParameters d)) (definitionBody d)

-- | The most names that a scope inside of a block has, where so many are known in front of it.
namesInBlock :: Int -> Block -> Int
namesInBlock before block = case block of
  [] -> before
  Let _ e : rest -> max (namesInExpression before e) (namesInBlock (before + 1) rest)
  Do x a _ : rest -> max (namesInAction before a) (namesInBlock (before + maybe 0 (const 1) x) rest)

namesInAction :: Int -> Action -> Int
namesInAction before a = case a of
  CallAction _ as -> maximum (before : map (namesInExpression before) as)
  Branch c -> namesInChoice namesInBlock before c
  Form ps -> pieces before ps
 where
  pieces n ps = case ps of
    [] -> n
    Binder _ : rest -> pieces (n + 1) rest
    Body b : rest -> max (namesInBlock n b) (pieces n rest)
    Argument e : rest -> max (namesInExpression n e) (pieces n rest)
    _ : rest -> pieces n rest

namesInChoice :: (Int -> a -> Int) -> Int -> Choice a -> Int
namesInChoice inside before c = case c of
  ChooseIf _ a b -> max (inside before a) (inside before b)
  ChooseCase _ _ (MaybeArms a _ b) -> max (inside before a) (inside (before + 1) b)
  ChooseCase _ _ (EitherArms _ a _ b) -> max (inside (before + 1) a) (inside (before + 1) b)
  ChooseCase _ _ (ListArms a _ _ b) -> max (inside before a) (inside (before + 2) b)
  Evaluated _ _ _ a -> inside (before + 1) a

namesInExpression :: Int -> Expression -> Int
namesInExpression before e = case e of
  Decide _ c -> namesInChoice namesInExpression before c
  _ -> maximum (before : map (namesInExpression before) (partsOf e))

-- | The types of what the actions of a block answer.
typesIn :: Block -> [ScriptType]
typesIn = concatMap statement
 where
  statement s = case s of
    Let _ _ -> []
    Do _ a t -> t : action a
  action a = case a of
    CallAction _ _ -> []
    Form ps -> concat [typesIn b | Body b <- ps]
    Branch c -> concatMap typesIn (foldr (:) [] c)

nodes :: ScriptType -> Int
nodes t = case t of
  PairType a b -> 1 + nodes a + nodes b
  MaybeType a -> 1 + nodes a
  EitherType a b -> 1 + nodes a + nodes b
  ListType a -> 1 + nodes a
  CellType a -> 1 + nodes a
  _ -> 1
