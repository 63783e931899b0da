-- |
-- Module      : FromHaskell.Reify
-- Description : Values as expressions
--
-- The expression of the script that has a value, at a type of the script; and the actions that must stand in front of
-- where an expression is evaluated: calls and throws, which no expression of a script can make.
module FromHaskell.Reify
  ( reify
  , hoist
  , expressionHere
  , expressionWhereUsed
  , strictHere
  , endBlock
  , retyped
  ) where

import Control.Monad (when)
import Data.Maybe (isNothing)

import FromHaskell.Encode
import {-# SOURCE #-} FromHaskell.Exceptions (reifyException)
import FromHaskell.Force
import FromHaskell.Ghc hiding (Let)
import {-# SOURCE #-} FromHaskell.Keep (kept)
import FromHaskell.Monad
import FromHaskell.Print (printType)
import FromHaskell.Report
import FromHaskell.Script
import FromHaskell.Value

-- | The expression that has this value, at this type.
reify :: ScriptType -> Value -> Translate Expression
reify t value0 = do
  value <- force value0
  case value of
    Residual e _ -> return e
    Shown _ _ e _ -> return e
    _ | KeptType name <- t -> kept name value
    Throwing e -> return (Raise t e)
    Chosen choice -> decide t <$> traverse (reify t) choice
    KnownNumber n
      | t == IntType, n < -9223372036854775808 || n > 9223372036854775807 -> refuse CauseNumber ("The Integer " ++ show n ++ " has more than 64 bits.")
      | t == IntType -> return (Number n)
    KnownText s
      | t == TextType -> return (Text s)
      | otherwise -> refuse CauseText "A list of characters that is no String."
    KnownCharacter c | t == TextType -> return (Text [c])
    Exceptional {} | t == ExceptionType -> reifyException value
    Constructed dc arguments -> reifyData t value0 dc arguments
    UnknownName name -> notKnown name
    Closure {} -> keeps "A function"
    Named f _ -> keeps ("The function " ++ occurrence (functionId f))
    Doing name _ _ -> keeps ("An action (" ++ name ++ ")")
    Primitive name _ _ -> keeps ("The function `" ++ name ++ "`")
    Method selector _ -> keeps ("The method " ++ occurrence selector)
    _ -> refuse CauseEvaluator ("A value that has no form in a script, where a value of the type " ++ printType t ++ " is wanted.")
 where
  keeps what = refuse CauseKept (what ++ " is kept as a value of the type " ++ printType t ++ ".")

reifyData :: ScriptType -> Value -> DataCon -> [Value] -> Translate Expression
reifyData t whole dc arguments = case t of
  BoolType -> return (Truth (name == "True"))
  UnitType -> return Unit
  IntType | isEnumeration tyCon -> return (Number (fromIntegral (dataConTag dc - 1)))
  TextType -> reifyText dc arguments
  MaybeType inner | occurrence tyCon == "Maybe" -> case arguments of
    [x] -> JustOf <$> reify inner x
    _ -> return (NothingOf inner)
  EitherType l r | occurrence tyCon == "Either", [x] <- arguments -> case name of
    "Left" -> LeftOf l r <$> reify l x
    _ -> RightOf l r <$> reify r x
  ListType element | occurrence tyCon == "[]" -> reifyList element t whole arguments
  ExceptionType -> refuse CauseEvaluator "An exception that isn't known."
  _ -> case alternatives (tyConDataCons tyCon) of
    OnlyOne _ -> row t arguments
    OneWithout bare others | MaybeType inner <- t -> if dc == bare then return (NothingOf inner) else JustOf <$> injected inner others
    _ -> injected t (tyConDataCons tyCon)
 where
  tyCon = dataConTyCon dc
  name = occurrence dc
  injected s constructors = case (s, constructors) of
    (_, [_]) -> row s arguments
    (EitherType l r, c : rest)
      | c == dc -> LeftOf l r <$> row l arguments
      | otherwise -> RightOf l r <$> injected r rest
    _ -> refuse CauseEvaluator "Data whose form in the script isn't known."
  row s values = case (s, values) of
    (_, []) -> return Unit
    (_, [x]) -> reify s x
    (PairType a b, x : rest) -> pairOf <$> reify a x <*> row b rest
    _ -> refuse CauseEvaluator "Data whose form in the script isn't known."

reifyText :: DataCon -> [Value] -> Translate Expression
reifyText dc arguments = case (occurrence dc, arguments) of
  ("[]", _) -> return (Text "")
  ("ErrorCallWithLocation", s : _) -> reify TextType s
  (":", [c, rest]) -> do
    character <- force c
    after <- reify TextType rest
    case character of
      KnownCharacter k -> return (before k after)
      Residual e TextType -> return (joined e after)
      Chosen _ -> (`joined` after) <$> reify TextType character
      _ -> refuse CauseText "A character that isn't known."
  _ -> refuse CauseText "A text that isn't known."
 where
  before k after = case after of
    Text s -> Text (k : s)
    Binary "++" (Text s) q -> Binary "++" (Text (k : s)) q
    _ -> Binary "++" (Text [k]) after
  joined e after = case after of
    Text "" -> e
    _ -> Binary "++" e after

reifyList :: ScriptType -> ScriptType -> Value -> [Value] -> Translate Expression
reifyList element t whole arguments = case arguments of
  [x, rest] -> do
    len <- spineLength 0 whole
    when (len > 300) $ refuse CauseEndless "A list without end, or of more than 300 elements, is kept as a value."
    e <- reify element x
    es <- reify t rest
    return $ case es of
      ListOf l -> ListOf (e : l)
      EmptyOf _ -> ListOf [e]
      _ -> Binary ":" e es
  _ -> return (EmptyOf element)

spineLength :: Int -> Value -> Translate Int
spineLength n value
  | n > 300 = return n
  | otherwise = do
      v <- force value
      case v of
        Constructed dc [_, rest] | occurrence dc == ":" -> spineLength (n + 1) rest
        _ -> return n

----------------------------------------------------------------------------------------------------------------------

-- | The expression with all in front that only an action can evaluate: calls, throws, and choices that hold one.
hoist :: Expression -> Translate Expression
hoist e
  | not (needsAction e) = return e
  | otherwise = case e of
      Call f partial arguments t -> do
        when (partial && not (isFlat t)) $
          strictHere CauseStrict ("A call of " ++ f ++ ", which may throw or not end, is evaluated whole; Haskell evaluates as much of its answer as is used.")
        arguments' <- mapM hoist arguments
        x <- fresh "r"
        emit (Do (Just x) (CallAction f arguments') t)
        return (Variable x)
      Raise t x -> do
        x' <- hoist x
        emit (throwAction t x')
        endsHere
      Binary "&&" a b | needsAction b -> hoist (Decide BoolType (ChooseIf a b (Truth False)))
      Binary "||" a b | needsAction b -> hoist (Decide BoolType (ChooseIf a (Truth True) b))
      Binary o a b -> Binary o <$> hoist a <*> hoist b
      Builtin f as -> Builtin f <$> mapM hoist as
      JustOf a -> JustOf <$> hoist a
      LeftOf s t a -> LeftOf s t <$> hoist a
      RightOf s t a -> RightOf s t <$> hoist a
      ListOf as -> ListOf <$> mapM hoist as
      Pair a b -> Pair <$> hoist a <*> hoist b
      Decide t choice -> hoistChoice t choice
      _ -> return e

hoistChoice :: ScriptType -> Choice Expression -> Translate Expression
hoistChoice t choice = case choice of
  Evaluated x s a b -> do
    a' <- hoist a
    emit (Do (Just x) (returnAction a') s)
    hoist b
  ChooseIf c a b -> do
    c' <- hoist c
    branches (ChooseIf c' a b)
  ChooseCase s c arms -> do
    c' <- hoist c
    branches (ChooseCase s c' arms)
 where
  branches decided
    | not (any needsAction decided) = return (decide t decided)
    | otherwise = do
        made <- traverse (inBlock . hoist) decided
        x <- fresh "r"
        emit (Do (Just x) (Branch (fmap ended made)) t)
        if all (isNothing . fst) made then endsHere else return (Variable x)
  ended (answer, b) = case answer of
    Just e -> endBlock t e b
    Nothing -> retyped t b

-- | The block with this answer.
endBlock :: ScriptType -> Expression -> Block -> Block
endBlock t e b = case (e, reverse b) of
  (Unit, Do _ a UnitType : rest) | t == UnitType -> reverse (Do Nothing a UnitType : rest)
  (Variable x, Do (Just y) a u : rest) | x == y -> reverse (Do Nothing a u : rest)
  (Variable x, Let y value : rest) | x == y -> reverse (Do Nothing (returnAction value) t : rest)
  _ -> b ++ [Do Nothing (returnAction e) t]

-- | A block that never ends by a value, at the type that is wanted.
retyped :: ScriptType -> Block -> Block
retyped t b = case reverse b of
  Do _ (Form [Word "throwIO", At _, e]) _ : rest -> reverse (Do Nothing (Form [Word "throwIO", At t, e]) t : rest)
  Do _ a u : rest
    | u == t -> reverse (Do Nothing a t : rest)
    | Just a' <- retypedAction a -> reverse (Do Nothing a' t : rest)
  _ -> b ++ [throwAction t (Builtin "ErrorCall" [Text "unreachable"])]
 where
  retypedAction a = case a of
    Branch choice -> Just (Branch (fmap (retyped t) choice))
    Form (Word w : ps) | w `elem` ["mask", "mask_", "uninterruptibleMask", "uninterruptibleMask_", "restore", "catch"] -> Just (Form (Word w : map retypedPiece ps))
    _ -> Nothing
  retypedPiece p = case p of
    Body inner -> Body (retyped t inner)
    _ -> p

-- | The expression that has the value, evaluated here as Haskell does, too.
expressionHere :: ScriptType -> Value -> Translate Expression
expressionHere t value = reify t value >>= hoist

-- | The expression that has the value, evaluated here, where Haskell evaluates it only where it is used.
expressionWhereUsed :: String -> ScriptType -> Value -> Translate Expression
expressionWhereUsed what t value = do
  e <- reify t value
  when (mayThrow e) $ strictHere CauseStrict (what ++ " is an expression that may throw or not end.")
  hoist e

-- | Refuses an evaluation that Haskell may leave out, or notes it where that is allowed.
strictHere :: Cause -> String -> Translate ()
strictHere cause detail = do
  settings <- settingsOf
  if settingStrict settings
    then note NoteStrict (detail ++ " The script evaluates it here.")
    else refuse cause detail
