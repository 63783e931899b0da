-- |
-- Module      : FromHaskell.Total
-- Description : What can't throw and ends
--
-- Whether a pure function of the script is total: nothing in it throws, and each call of itself has an argument that is
-- a part of a parameter, or a number that comes nearer to its bound. And which parameters a function evaluates first.
module FromHaskell.Total
  ( isTotal
  , strictParameters
  ) where

import qualified Data.Map.Strict as Map

import FromHaskell.Script

-- | What is known of a name: which parameter it is (a part of), and whether it is less than that.
type Sizes = Map.Map Name (Int, Bool)

-- | Tests that hold at a place: @a <= b@ is known to be false, and the like.
data Fact
  = Above Expression Expression    -- ^ the first is above the second
  deriving (Eq)

-- | A call of the function itself: for each parameter, whether its argument is less.
type SelfCall = [Bool]

-- | Whether the definition of a pure function never throws and always ends. The function says it of the others.
isTotal :: (Name -> Bool) -> Definition -> Bool
isTotal total d = case inBlockCalls total d [] sizes (definitionBody d) of
  Nothing -> False
  Just [] -> True
  Just calls -> or [all (isLess i) calls | i <- [0 .. length (definitionParameters d) - 1]]
 where
  sizes = Map.fromList [(x, (i, False)) | (i, (x, _)) <- zip [0 ..] (definitionParameters d)]
  isLess i call = case drop i call of
    less : _ -> less
    [] -> False

-- | The calls of itself in a block, or nothing where the block may throw.
inBlockCalls :: (Name -> Bool) -> Definition -> [Fact] -> Sizes -> Block -> Maybe [SelfCall]
inBlockCalls total d facts sizes block = case block of
  [] -> Just []
  Let x e : rest
    | mayThrow e -> Nothing
    | otherwise -> inBlockCalls total d facts (sized x e) rest
  Do x a _ : rest -> do
    calls <- actionCalls total d facts sizes a
    more <- inBlockCalls total d facts (maybe sizes (`Map.delete` sizes) x) rest
    return (calls ++ more)
 where
  sized x e = case sizeOf sizes e of
    Just s -> Map.insert x s sizes
    Nothing -> Map.delete x sizes

actionCalls :: (Name -> Bool) -> Definition -> [Fact] -> Sizes -> Action -> Maybe [SelfCall]
actionCalls total d facts sizes a = case a of
  CallAction f arguments
    | any mayThrow arguments -> Nothing
    | f == definitionName d -> Just [zipWith less [0 ..] arguments]
    | total f -> Just []
    | otherwise -> Nothing
  Form [Word "return", Argument e]
    | mayThrow e -> Nothing
    | otherwise -> Just []
  Branch (ChooseIf c p q)
    | mayThrow c -> Nothing
    | otherwise -> (++) <$> inBlockCalls total d (facts ++ whenTrue c) sizes p <*> inBlockCalls total d (facts ++ whenFalse c) sizes q
  Branch (ChooseCase _ c arms)
    | mayThrow c -> Nothing
    | otherwise -> concat <$> mapM (\(names, b) -> inBlockCalls total d facts (withParts c names) b) (armsOf arms)
  _ -> Nothing
 where
  withParts c names = case sizeOf sizes c of
    Just (i, _) -> foldr (\x -> Map.insert x (i, True)) sizes names
    Nothing -> foldr Map.delete sizes names
  less i argument = structural || nearer
   where
    structural = sizeOf sizes argument == Just (i, True)
    nearer = case argument of
      Binary "-" p (Number k) -> k > 0 && isParameter p && any (isBoundedBelow p) facts
      Binary "+" p (Number k) -> k > 0 && isParameter p && any (isBoundedAbove p) facts
      _ -> False
    isParameter p = sizeOf sizes p == Just (i, False)
  isBoundedBelow p (Above x y) = x == p && isFixed y
  isBoundedAbove p (Above x y) = y == p && isFixed x
  -- What the bound is made of stays the same from call to call: numbers, and parameters that are handed on as they are.
  isFixed e = case e of
    Number _ -> True
    Variable x | Just (j, False) <- Map.lookup x sizes -> handedOn j x
    _ -> False
  handedOn j x = case a of
    CallAction _ arguments -> case drop j arguments of
      Variable y : _ -> x == y
      _ -> False
    _ -> False

armsOf :: Arms Block -> [([Name], Block)]
armsOf arms = case arms of
  MaybeArms a x b -> [([], a), ([x], b)]
  EitherArms x a y b -> [([x], a), ([y], b)]
  ListArms a x y b -> [([], a), ([x, y], b)]

sizeOf :: Sizes -> Expression -> Maybe (Int, Bool)
sizeOf sizes e = case e of
  Variable x -> Map.lookup x sizes
  Builtin f [x] | f `elem` ["fst", "snd"] -> (\(i, _) -> (i, True)) <$> sizeOf sizes x
  _ -> Nothing

whenTrue, whenFalse :: Expression -> [Fact]
whenTrue c = case c of
  Binary ">" a b -> [Above a b]
  Binary ">=" a b -> [Above a b]
  Binary "<" a b -> [Above b a]
  Binary "<=" a b -> [Above b a]
  _ -> []
whenFalse c = case c of
  Binary ">" a b -> [Above b a]
  Binary ">=" a b -> [Above b a]
  Binary "<" a b -> [Above a b]
  Binary "<=" a b -> [Above a b]
  _ -> []

-- | For each parameter, whether the function evaluates it before it does anything else.
strictParameters :: Definition -> [Bool]
strictParameters d = map ((`elem` evaluated) . fst) (definitionParameters d)
 where
  evaluated = case definitionBody d of
    Do _ (Branch (ChooseIf c _ _)) _ : _ -> always c
    Do _ (Branch (ChooseCase _ c _)) _ : _ -> always c
    [Do _ (Form [Word "return", Argument e]) t] | isFlat t -> always e
    _ -> []
  always e = case e of
    Variable x -> [x]
    Binary "&&" a _ -> always a
    Binary "||" a _ -> always a
    Binary o a b | o `notElem` [":", "++"] -> always a ++ always b
    Builtin f as | f `elem` ["not", "div", "mod", "show"] -> concatMap always as
    Decide _ (ChooseIf c _ _) -> always c
    Decide _ (ChooseCase _ c _) -> always c
    _ -> []
