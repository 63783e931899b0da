-- |
-- Module      : FromHaskell.Case
-- Description : Case expressions
--
-- A case on what is known takes its alternative. A case on a choice goes into the branches, and a case on a residual
-- value becomes a choice, in whose branches the constructor is known.
module FromHaskell.Case
  ( caseOf
  ) where

import Control.Monad ((>=>))
import Data.List (foldl')
import Data.Maybe (isJust)

import FromHaskell.Encode
import {-# SOURCE #-} FromHaskell.Evaluate (evaluate)
import FromHaskell.Force
import FromHaskell.Ghc
import FromHaskell.Method (dictionaryFields)
import FromHaskell.Monad
import FromHaskell.Report
import FromHaskell.Script
import FromHaskell.Value

-- | What a case needs to choose and evaluate an alternative.
data Branches = Branches
  { branchEnvironment :: Environment
  , branchBinders :: [Var]       -- ^ the case's own name first, then the variable that it looks at
  , branchAlternatives :: [CoreAlt]
  }

-- | The value of a case: environment, type, the variables that stand for the scrutinee, alternatives, scrutinee.
caseOf :: Environment -> Type -> [Var] -> [CoreAlt] -> Value -> Translate Value
caseOf environment _ binders alternativesOf scrutinee = force scrutinee >>= select (Branches environment binders alternativesOf)

select :: Branches -> Value -> Translate Value
select b value = case value of
  Chosen choice -> overChoice (force >=> select b) choice
  Throwing e -> return (Throwing e)
  _ | [(DEFAULT, _, body)] <- branchAlternatives b -> onlyEvaluated b value body
  Constructed dc [] | hasLiterals b, occurrence dc `elem` ["True", "False"] -> truth b (occurrence dc == "True") value
  Constructed dc arguments -> known b dc arguments value
  Shown dc arguments _ _ -> known b dc arguments value
  KnownNumber n -> number b n value
  KnownCharacter c -> literal b (isCharacterLiteral c) "C#" value
  KnownText s -> text b s value
  Residual e t -> residualCase b e t value
  Exceptional t dictionary x -> exceptional b [TypeValue t, dictionary, x] value
  UnknownName name -> notKnown name
  Dictionary d _ -> do
    fields <- dictionaryFields value
    case (fields, [dc | (DataAlt dc, _, _) <- branchAlternatives b]) of
      (Just known', dc : _) -> known b dc known' value
      _ -> refuse CauseEvaluator ("The dictionary " ++ occurrence d ++ " is taken apart.")
  Doing {} -> refuse CauseEvaluator "An action is taken apart into the steps that it is made of inside of GHC."
  _ -> refuse CauseUnknownFunction "A function is taken apart."

-- | A case that only evaluates: what may throw gets a name, so that it is evaluated once, and here.
onlyEvaluated :: Branches -> Value -> CoreExpr -> Translate Value
onlyEvaluated b value body = case value of
  Residual e t | mayThrow e -> do
    x <- freshArm (hintOf (branchBinders b))
    Chosen . Evaluated x t e <$> evaluate (withBinders b (Residual (Variable x) t)) body
  _ -> evaluate (withBinders b value) body
 where
  hintOf vs = case [occurrence v | v <- drop 1 vs] of
    name : _ -> name
    [] -> "x"

-- | The environment in which the case's own names stand for the value.
withBinders :: Branches -> Value -> Environment
withBinders b value = foldl' (\e v -> bind e v value) environment (take 1 (branchBinders b) ++ filter bound (drop 1 (branchBinders b)))
 where
  environment = branchEnvironment b
  bound v = isJust (lookupVarEnv (environmentValues environment) v)

-- | The same where the constructor of a residual value is known from here on.
withShown :: Branches -> DataCon -> [Value] -> Value -> Environment
withShown b dc arguments value = case value of
  Residual e t | not (mayThrow e) -> withBinders b (Shown dc arguments e t)
  _ -> withBinders b value

defaultOf :: Branches -> Environment -> Translate Value
defaultOf b environment = case branchAlternatives b of
  (DEFAULT, _, body) : _ -> evaluate environment body
  _ -> return (Throwing (Builtin "ErrorCall" [Text "incomplete patterns"]))

alternativeFor :: Branches -> DataCon -> Maybe ([Var], CoreExpr)
alternativeFor b dc = case [(xs, body) | (DataAlt k, xs, body) <- branchAlternatives b, k == dc] of
  found : _ -> Just found
  [] -> Nothing

inAlternative :: Branches -> Environment -> DataCon -> [Value] -> Translate Value
inAlternative b environment dc arguments = case alternativeFor b dc of
  Just (xs, body) -> evaluate (foldl' (\e (x, a) -> bind e x a) environment (zip xs arguments)) body
  Nothing -> defaultOf b environment

known :: Branches -> DataCon -> [Value] -> Value -> Translate Value
known b dc arguments value = case [k | (DataAlt k, _, _) <- branchAlternatives b] of
  k : _ | isUnit dc, not (isUnit k), [one] <- tyConDataCons (dataConTyCon k) ->
    -- A type with one value is () in the script.
    inAlternative b (withBinders b value) one [value | dataConSourceArity one == 1]
  _ -> inAlternative b (withBinders b value) dc arguments
 where
  isUnit k = occurrence k == "()"

-- | Whether the alternatives are constants.
hasLiterals :: Branches -> Bool
hasLiterals b = or [True | (LitAlt _, _, _) <- branchAlternatives b]

-- | A comparison inside of GHC gives 1 or 0, which is a truth here.
truth :: Branches -> Bool -> Value -> Translate Value
truth b yes = literal b (isNumberLiteral (if yes then 1 else 0)) "I#"

-- | A number or character: by a literal, or by the constructor that boxes it.
literal :: Branches -> (CoreAlt -> Bool) -> String -> Value -> Translate Value
literal b matches box value = case filter matches (branchAlternatives b) of
  (_, _, body) : _ -> evaluate environment body
  [] -> boxed [box]
 where
  environment = withBinders b value
  boxed names = case [(x, body) | (DataAlt k, [x], body) <- branchAlternatives b, occurrence k `elem` names] of
    (x, body) : _ -> evaluate (bind environment x value) body
    [] -> defaultOf b environment

isCharacterLiteral :: Char -> CoreAlt -> Bool
isCharacterLiteral c alternative = case alternative of
  (LitAlt l, _, _) | Just (LiteralCharacter k) <- literalValue l -> k == c
  _ -> False

number :: Branches -> Integer -> Value -> Translate Value
number b n value = case [(x, body) | (DataAlt k, [x], body) <- branchAlternatives b, occurrence k `elem` ["I#", "IS"]] of
  (x, body) : _ -> evaluate (bind (withBinders b value) x value) body
  [] -> literal b (isNumberLiteral n) "I#" value

isNumberLiteral :: Integer -> CoreAlt -> Bool
isNumberLiteral n alternative = case alternative of
  (LitAlt l, _, _) | Just (LiteralNumber k) <- literalValue l -> k == n
  _ -> False

text :: Branches -> String -> Value -> Translate Value
text b s value = case (s, [(k, xs, body) | (DataAlt k, xs, body) <- branchAlternatives b]) of
  ([], alternativesOf) | (_, _, body) : _ <- named "[]" alternativesOf -> evaluate environment body
  (c : rest, alternativesOf)
    | (_, [x, y], body) : _ <- named ":" alternativesOf -> evaluate (bind (bind environment x (KnownCharacter c)) y (KnownText rest)) body
  _ -> defaultOf b environment
 where
  environment = withBinders b value
  named n alternativesOf = [a | a@(k, _, _) <- alternativesOf, occurrence k == n]

exceptional :: Branches -> [Value] -> Value -> Translate Value
exceptional b arguments value = case [(xs, body) | (DataAlt k, xs, body) <- branchAlternatives b, occurrence k == "SomeException"] of
  (xs, body) : _ -> evaluate (foldl' (\e (x, a) -> bind e x a) (withBinders b value) (zip xs arguments)) body
  [] -> defaultOf b (withBinders b value)

-- | A case on what only a run knows.
residualCase :: Branches -> Expression -> ScriptType -> Value -> Translate Value
residualCase b e t value = case [a | a@(k, _, _) <- branchAlternatives b, k /= DEFAULT] of
  (LitAlt _, _, _) : _ | t == BoolType -> Chosen <$> (ChooseIf e <$> truth b True value <*> truth b False value)
  (LitAlt _, _, _) : _ -> literalChain b e value [(l, body) | (LitAlt l, _, body) <- branchAlternatives b]
  (DataAlt k, xs, body) : _ -> residualData b e t value k xs body
  _ -> defaultOf b (withBinders b value)

residualData :: Branches -> Expression -> ScriptType -> Value -> DataCon -> [Var] -> CoreExpr -> Translate Value
residualData b e t value k xs body = case t of
  IntType
    | occurrence k `elem` ["I#", "IS"] -> boxed
    | isEnumeration tyCon -> enumerationChain b e value (zip [0 ..] constructors)
  BoolType | [false, true] <- constructors -> Chosen <$> (ChooseIf e <$> arm true [] <*> arm false [])
  MaybeType inner | occurrence tyCon == "Maybe", [none, some] <- constructors -> do
    y <- freshArm (hint b some 0)
    Chosen . ChooseCase t e <$> (MaybeArms <$> arm none [] <*> pure y <*> (residual (Variable y) inner >>= \v -> arm some [v]))
  EitherType left right | occurrence tyCon == "Either", [l, r] <- constructors -> do
    y <- freshArm (hint b l 0)
    z <- freshArm (hint b r 0)
    Chosen . ChooseCase t e
      <$> (EitherArms y <$> (residual (Variable y) left >>= \v -> arm l [v]) <*> pure z <*> (residual (Variable z) right >>= \v -> arm r [v]))
  ListType element | [nil, cons] <- constructors -> do
    y <- freshArm (hint b cons 0)
    z <- freshArm (hint b cons 1)
    Chosen . ChooseCase t e <$> (ListArms <$> arm nil [] <*> pure y <*> pure z <*> (residual (Variable y) element >>= \v -> arm cons [v, Residual (Variable z) t]))
  TextType
    | occurrence k == "C#" -> boxed
    | occurrence k == "ErrorCallWithLocation" -> evaluate (foldl' (\en (x, a) -> bind en x a) here (zip xs [value, KnownText ""])) body
    | otherwise -> refuse CauseText "A String that isn't known is taken apart."
  ExceptionType -> evaluate (foldl' (\en (x, a) -> bind en x a) here (zip xs [TypeValue (mkTyConTy tyCon), Primitive "unknownException" 1 [], value])) body
  _ -> case alternatives constructors of
    OnlyOne one -> fieldsOf e t (dataConSourceArity one) >>= arm one
    OneWithout bare others | MaybeType inner <- t -> do
      y <- freshArm "y"
      Chosen . ChooseCase t e <$> (MaybeArms <$> arm bare [] <*> pure y <*> sumChain b (Variable y) inner value others)
    _ -> sumChain b e t value constructors
 where
  tyCon = dataConTyCon k
  constructors = tyConDataCons tyCon
  here = withBinders b value
  boxed = case xs of
    [x] -> evaluate (bind here x value) body
    _ -> defaultOf b here
  arm = inShown b value

inShown :: Branches -> Value -> DataCon -> [Value] -> Translate Value
inShown b value dc arguments = inAlternative b (withShown b dc arguments value) dc arguments

-- | A name for a field: that of the alternative's pattern.
hint :: Branches -> DataCon -> Int -> String
hint b dc index = case alternativeFor b dc of
  Just (xs, _) | x : _ <- drop index xs -> occurrence x
  _ -> "x"

literalChain :: Branches -> Expression -> Value -> [(Literal, CoreExpr)] -> Translate Value
literalChain b e value chain = case chain of
  [] -> defaultOf b (withBinders b value)
  (l, body) : rest -> do
    constant <- case literalValue l of
      Just (LiteralNumber n) -> return (Number n)
      Just (LiteralCharacter c) -> return (Text [c])
      _ -> refuse CauseLiteral "A pattern that is no number and no character."
    yes <- evaluate (withBinders b value) body
    no <- literalChain b e value rest
    return (Chosen (ChooseIf (Binary "==" e constant) yes no))

enumerationChain :: Branches -> Expression -> Value -> [(Integer, DataCon)] -> Translate Value
enumerationChain b e value chain = case chain of
  [] -> defaultOf b (withBinders b value)
  [(_, dc)] -> inShown b value dc []
  (position, dc) : rest
    | alternativeFor b dc `sameDefault` map (alternativeFor b . snd) rest -> inShown b value dc []
    | otherwise -> do
        yes <- inShown b value dc []
        no <- enumerationChain b e value rest
        return (Chosen (ChooseIf (Binary "==" e (Number position)) yes no))
 where
  sameDefault Nothing others = not (any isJust others)
  sameDefault (Just _) _ = False

sumChain :: Branches -> Expression -> ScriptType -> Value -> [DataCon] -> Translate Value
sumChain b e t value chain = case (chain, t) of
  ([dc], _) -> fieldsOf e t (dataConSourceArity dc) >>= inShown b value dc
  (dc : rest, EitherType left right) -> do
    x <- freshArm (if dataConSourceArity dc == 1 then hint b dc 0 else "x")
    y <- freshArm "y"
    yes <- fieldsOf (Variable x) left (dataConSourceArity dc) >>= inShown b value dc
    no <- sumChain b (Variable y) right value rest
    return (Chosen (ChooseCase t e (EitherArms x yes y no)))
  _ -> defaultOf b (withBinders b value)

-- | The fields of a constructor, as parts of nested pairs.
fieldsOf :: Expression -> ScriptType -> Int -> Translate [Value]
fieldsOf e t arity = case (arity, t) of
  (0, _) -> return []
  (1, _) -> (: []) <$> residual e t
  (_, PairType a b) -> (:) <$> residual (first e) a <*> fieldsOf (second e) b (arity - 1)
  _ -> return []
