-- |
-- Module      : FromHaskell.Primitive
-- Description : Functions that the evaluator knows
--
-- Numbers, comparisons, texts and throws. With known arguments they are computed here, else they leave an expression.
module FromHaskell.Primitive
  ( runPrimitive
  , wrapped
  ) where

import Control.Monad (when)
import Data.Int (Int64)
import Data.List (stripPrefix)
import Data.Maybe (catMaybes, mapMaybe)
import System.FilePath (takeFileName)

import FromHaskell.Encode
import {-# SOURCE #-} FromHaskell.Evaluate (applyPrelude)
import FromHaskell.Exceptions
import FromHaskell.Force
import FromHaskell.Ghc
import FromHaskell.Known
import FromHaskell.Method (showBy)
import FromHaskell.Monad
import FromHaskell.Reify
import FromHaskell.Report
import FromHaskell.Script
import FromHaskell.Value

-- | A known function with all its arguments. An action stays one: it is run where its place in a block is.
runPrimitive :: String -> [Value] -> Translate Value
runPrimitive name arguments
  | isAction name = Doing name arguments <$> place
  | otherwise = case (name, arguments) of
      ("same", [x]) -> force x
      ("toInt", [x]) -> force x >>= \v -> return (case v of KnownNumber n -> KnownNumber (wrapped n); _ -> v)
      ("isTrue#", [x]) -> force x
      ("tagToEnum#", [TypeValue t, x]) -> tagged t x
      ("coerce", [_, _, _, x]) -> force x
      ("dataToTag#", [_, x]) -> tagOf x
      ("otherwise", []) -> truthValue True
      ("stdout", []) -> return (Primitive "stdout" 9 [])
      ("stderr", []) -> return (Primitive "stderr" 9 [])
      ("emptyCallStack", _) -> return CoercionValue
      ("pushCallStack", _) -> return CoercionValue
      ("referenceCell", [_, x]) -> force x
      ("cellReference", [_, x]) -> force x
      (_, [x]) | name `elem` ["semaphoreCell", "cellSemaphore", "quantityCell", "cellQuantity"] -> force x
      ("fromIntegral", [TypeValue a, TypeValue b, _, _, x]) -> converted a b x
      _ | Just result <- numeric name arguments -> result
        | Just result <- textual name arguments -> result
        | Just result <- throwing name arguments -> result
      _ -> refuse CauseEvaluator ("`" ++ name ++ "` isn't done with these arguments.")

-- | The number as an Int.
wrapped :: Integer -> Integer
wrapped n = fromIntegral (fromIntegral n :: Int64)

tagged :: Type -> Value -> Translate Value
tagged t x = do
  v <- force x
  case (v, splitTyConApp_maybe t) of
    (KnownNumber n, Just (tyCon, _)) | dc : _ <- drop (fromIntegral n) (tyConDataCons tyCon) -> return (Constructed dc [])
    _ -> return v

tagOf :: Value -> Translate Value
tagOf x = do
  v <- force x
  case v of
    Constructed dc _ -> return (KnownNumber (fromIntegral (dataConTag dc - 1)))
    Shown dc _ _ _ -> return (KnownNumber (fromIntegral (dataConTag dc - 1)))
    Residual _ IntType -> return v
    Chosen choice -> overChoice tagOf choice
    Throwing e -> return (Throwing e)
    _ -> refuse CauseEvaluator "The number of a constructor that isn't known."

converted :: Type -> Type -> Value -> Translate Value
converted a b x
  | all ((`elem` ["Int", "Integer", "Int64"]) . typeName) [a, b] = do
      v <- force x
      case v of
        KnownNumber n | typeName b /= "Integer" -> return (KnownNumber (wrapped n))
        Residual e IntType | typeName a /= "Integer", typeName b == "Integer" -> return (Residual (Builtin "integerOf" [e]) IntType)
        _ -> return v
  | otherwise = refuse CauseNumber ("A number of the type " ++ showType a ++ " becomes one of the type " ++ showType b ++ ".")

----------------------------------------------------------------------------------------------------------------------

numeric :: String -> [Value] -> Maybe (Translate Value)
numeric name arguments = case arguments of
  [x]
    | Just o <- stripPrefix "integer" name -> integer1 o x
    | Just o <- stripPrefix "int" name -> int1 o x
  [a, b]
    | Just o <- stripPrefix "equal" name -> Just (equality o a b)
    | Just o <- stripPrefix "order" name -> Just (ordering o a b)
    | Just o <- stripPrefix "integer" name -> integer2 o a b
    | Just o <- stripPrefix "int" name -> int2 o a b
    | Just o <- lookup name comparisons -> Just (if o `elem` ["==", "/="] then equality o a b else ordering o a b)
    | name `elem` ["+#", "-#", "*#"] -> int2 (take 1 name) a b
  _ -> Nothing
 where
  comparisons =
    [ ("eqInt", "=="), ("neInt", "/="), ("ltInt", "<"), ("leInt", "<="), ("gtInt", ">"), ("geInt", ">="), ("eqString", "==")
    , ("==#", "=="), ("/=#", "/="), ("<#", "<"), ("<=#", "<="), (">#", ">"), (">=#", ">=")
    ]

-- | A function of one number: what it is of a known one, and of another.
one :: (Integer -> Integer) -> (Expression -> Expression) -> Value -> Translate Value
one known unknown x = do
  v <- force x
  case v of
    KnownNumber n -> return (KnownNumber (known n))
    Throwing e -> return (Throwing e)
    _ -> (\e -> Residual (unknown e) IntType) <$> reify IntType v

two :: (Integer -> Integer -> Integer) -> (Expression -> Expression -> Expression) -> Value -> Value -> Translate Value
two known unknown a b = do
  x <- force a
  y <- force b
  case (x, y) of
    (KnownNumber m, KnownNumber n) -> return (KnownNumber (known m n))
    (Throwing e, _) -> return (Throwing e)
    _ -> (\e f -> Residual (unknown e f) IntType) <$> reify IntType x <*> reify IntType y

int1, integer1 :: String -> Value -> Maybe (Translate Value)
int1 o x = case o of
  "negate" -> Just (one (wrapped . negate) (Binary "-" (Number 0)) x)
  "abs" -> Just (one (wrapped . abs) (absolute (Binary "-" (Number 0))) x)
  "signum" -> Just (one signum sign x)
  "succ" -> int2 "+" x (KnownNumber 1)
  "pred" -> int2 "-" x (KnownNumber 1)
  _ -> Nothing
integer1 o x = case o of
  "negate" -> Just (one negate negative x)
  "abs" -> Just (one abs (absolute negative) x)
  "signum" -> Just (one signum sign x)
  "succ" -> integer2 "+" x (KnownNumber 1)
  "pred" -> integer2 "-" x (KnownNumber 1)
  _ -> Nothing
 where
  negative e = Builtin "integerMinus" [Number 0, e]

absolute :: (Expression -> Expression) -> Expression -> Expression
absolute negative e = Decide IntType (ChooseIf (Binary "<" e (Number 0)) (negative e) e)

sign :: Expression -> Expression
sign e = Decide IntType (ChooseIf (Binary "<" e (Number 0)) (Number (-1)) (Decide IntType (ChooseIf (Binary "==" e (Number 0)) (Number 0) (Number 1))))

int2, integer2 :: String -> Value -> Value -> Maybe (Translate Value)
int2 o a b = case o of
  "+" -> Just (two (\m n -> wrapped (m + n)) (Binary "+") a b)
  "-" -> Just (two (\m n -> wrapped (m - n)) (Binary "-") a b)
  "*" -> Just (two (\m n -> wrapped (m * n)) (Binary "*") a b)
  _ -> division o a b
integer2 o a b = case o of
  "+" -> Just (two (+) (\x y -> Builtin "integerPlus" [x, y]) a b)
  "-" -> Just (two (-) (\x y -> Builtin "integerMinus" [x, y]) a b)
  "*" -> Just (two (*) (\x y -> Builtin "integerTimes" [x, y]) a b)
  _ -> division o a b

-- | Division. A script rounds toward minus infinity; @quot@ and @rem@ round toward zero.
division :: String -> Value -> Value -> Maybe (Translate Value)
division o a b = case o of
  "div" -> Just (divided div (\x y -> Builtin "div" [x, y]))
  "mod" -> Just (divided mod (\x y -> Builtin "mod" [x, y]))
  "quot" -> Just (divided quot (\x y -> towardZero x y (Binary "+" (Builtin "div" [x, y]) (Number 1)) (Builtin "div" [x, y])))
  "rem" -> Just (divided rem (\x y -> towardZero x y (Binary "-" (Builtin "mod" [x, y]) y) (Builtin "mod" [x, y])))
  _ -> Nothing
 where
  divided known unknown = do
    x <- force a
    y <- force b
    case (x, y) of
      (KnownNumber m, KnownNumber n) | n /= 0 && n /= -1 -> return (KnownNumber (known m n))
      (Throwing e, _) -> return (Throwing e)
      (_, KnownNumber 0) -> return (Throwing (Constant "DivideByZero"))
      _ -> (\e f -> Residual (unknown e f) IntType) <$> reify IntType x <*> reify IntType y
  towardZero x y other same = Decide IntType (ChooseIf (Binary "&&" (Binary "/=" (Builtin "mod" [x, y]) (Number 0)) (differ x y)) other same)
  differ x y = case y of
    Number n | n > 0 -> Binary "<" x (Number 0)
    _ -> Binary "/=" (Binary "<" x (Number 0)) (Binary "<" y (Number 0))

equality :: String -> Value -> Value -> Translate Value
equality o a b = do
  x <- force a
  y <- force b
  let answer equal' = truthValue (if o == "==" then equal' else not equal')
      compared t = (\e f -> Residual (Binary o e f) BoolType) <$> reify t x <*> reify t y
  case (x, y) of
    (KnownNumber m, KnownNumber n) -> answer (m == n)
    (KnownCharacter m, KnownCharacter n) -> answer (m == n)
    (KnownText m, KnownText n) -> answer (m == n)
    (Throwing e, _) -> return (Throwing e)
    _
      | Just c <- bare x, Just d <- bare y -> answer (c == d)
      | t : _ <- catMaybes [typeOfValue x, typeOfValue y] -> compared t
      | otherwise -> compared IntType
 where
  bare v = case v of
    Constructed dc [] -> Just dc
    Shown dc [] _ _ -> Just dc
    _ -> Nothing

-- | The type of the script that a value has, where it says one.
typeOfValue :: Value -> Maybe ScriptType
typeOfValue v = case v of
  KnownText _ -> Just TextType
  KnownCharacter _ -> Just TextType
  KnownNumber _ -> Just IntType
  Residual _ t -> Just t
  Shown _ _ _ t -> Just t
  Constructed dc [] | occurrence dc `elem` ["True", "False"] -> Just BoolType
  Chosen choice | t : _ <- mapMaybe typeOfValue (foldr (:) [] choice) -> Just t
  _ -> Nothing

ordering :: String -> Value -> Value -> Translate Value
ordering o a b = do
  x <- force a
  y <- force b
  let t = if TextType `elem` catMaybes [typeOfValue x, typeOfValue y] then TextType else IntType
  case (x, y) of
    _ | o `elem` ["max", "min"] -> two (if o == "max" then max else min) extreme x y
    (KnownNumber m, KnownNumber n) -> truthValue (compared m n)
    (KnownCharacter m, KnownCharacter n) -> truthValue (compared m n)
    (KnownText m, KnownText n) -> truthValue (compared m n)
    (Throwing e, _) -> return (Throwing e)
    _ -> (\e f -> Residual (Binary o e f) BoolType) <$> reify t x <*> reify t y
 where
  compared :: Ord q => q -> q -> Bool
  compared = case o of
    "<" -> (<)
    "<=" -> (<=)
    ">" -> (>)
    _ -> (>=)
  extreme x y
    | o == "max" = Decide IntType (ChooseIf (Binary "<=" x y) y x)
    | otherwise = Decide IntType (ChooseIf (Binary "<=" x y) x y)

----------------------------------------------------------------------------------------------------------------------

textual :: String -> [Value] -> Maybe (Translate Value)
textual name arguments = case (name, arguments) of
  ("unpackCString#", [x]) -> Just (force x)
  ("unpackCStringUtf8#", [x]) -> Just (force x)
  ("++", [TypeValue t, a, b])
    | isCharacter t -> Just (joined a b)
    | otherwise -> Just (applyPrelude "listAppend" [TypeValue t, a, b])
  ("showNumber", [x]) -> Just (shownNumber x)
  ("showThread", [x]) -> Just (shown ThreadType x)
  ("showException", [x]) -> Just (textOfException x)
  ("showErrorCall", [x]) -> Just (shownErrorCall x)
  ("showText", [x]) -> Just (quoted x)
  ("showTextBefore", [x, rest]) -> Just (quoted x >>= \s -> joined s rest)
  ("showCharacter", [x]) -> Just (quotedCharacter x)
  _ -> Nothing
 where
  shown t x = (\e -> Residual (Builtin "show" [e]) TextType) <$> reify t x
  shownNumber x = do
    v <- force x
    case v of
      KnownNumber n -> return (KnownText (show n))
      Throwing e -> return (Throwing e)
      Chosen choice -> overChoice shownNumber choice
      _ -> shown IntType v

shownErrorCall :: Value -> Translate Value
shownErrorCall x = do
  v <- force x
  case v of
    Constructed _ (s : _) -> force s
    Residual e TextType -> do
      here <- place
      modify worldStackShown (here :)
      return (Residual e TextType)
    Chosen choice -> overChoice shownErrorCall choice
    Throwing e -> return (Throwing e)
    _ -> refuse CauseEvaluator "An ErrorCall that isn't known."

quoted, quotedCharacter :: Value -> Translate Value
quoted x = do
  v <- force x
  case v of
    KnownText s -> return (KnownText (show s))
    Chosen choice -> overChoice quoted choice
    Throwing e -> return (Throwing e)
    _ -> do
      e <- reify TextType v
      case e of
        Text s -> return (KnownText (show s))
        _ -> refuse CauseText "`show` of a String that isn't known, which would have quotes."
quotedCharacter x = do
  v <- force x
  case v of
    KnownCharacter c -> return (KnownText (show c))
    Chosen choice -> overChoice quotedCharacter choice
    Throwing e -> return (Throwing e)
    _ -> refuse CauseText "`show` of a character that isn't known, which would have quotes."

-- | A text behind another.
joined :: Value -> Value -> Translate Value
joined a b = do
  x <- force a
  case x of
    Throwing e -> return (Throwing e)
    KnownText "" -> force b
    Constructed dc [] | occurrence dc == "[]" -> force b
    Chosen (Evaluated n t e v) -> Chosen . Evaluated n t e <$> joined v b
    KnownText s -> do
      y <- force b
      case y of
        KnownText t -> return (KnownText (s ++ t))
        _ -> valueOf . behind (Text s) <$> reify TextType y
    _ -> do
      e <- reify TextType x
      f <- reify TextType b
      return (valueOf (behind e f))
 where
  valueOf e = case e of
    Text s -> KnownText s
    _ -> Residual e TextType
  behind e f = case (e, f) of
    (_, Text "") -> e
    (Text s, Text t) -> Text (s ++ t)
    (Text s, Binary "++" (Text t) r) -> Binary "++" (Text (s ++ t)) r
    (Binary "++" q (Text s), Text t) -> Binary "++" q (Text (s ++ t))
    (Binary "++" q (Text s), Binary "++" (Text t) r) -> Binary "++" (Binary "++" q (Text (s ++ t))) r
    _ -> Binary "++" e f

----------------------------------------------------------------------------------------------------------------------

throwing :: String -> [Value] -> Maybe (Translate Value)
throwing name arguments = case (name, arguments) of
  ("error", [_, _, _, s]) -> Just $ do
    note NoteCallStack "The text of `error` has no call stack in the script."
    stackThrown
    errorWith s
  ("errorWithoutStackTrace", [_, _, s]) -> Just (errorWith s)
  ("undefined", _) -> Just (stackThrown >> constant "Prelude.undefined")
  ("throw", [_, _, TypeValue t, dictionary, x]) -> Just (thrownException t dictionary x)
  ("patError", _) -> Just (failed "Non-exhaustive patterns")
  ("recSelError", _) -> Just (failed "No match in record selector")
  ("recConError", _) -> Just (failed "Missing field in record construction")
  ("noMethodBindingError", _) -> Just (failed "No instance nor default method for class operation")
  ("absentError", _) -> Just (constant "absent")
  ("$dmfromException", [TypeValue t, dictionary, x]) -> Just (matchException t dictionary x)
  ("$dmtoException", [TypeValue t, dictionary, x]) -> Just (return (Exceptional t dictionary x))
  ("$dmtoException", [dictionary, TypeValue t, x]) -> Just (return (Exceptional t dictionary x))
  ("$dmdisplayException", [_, dictionary, x]) -> Just (showBy dictionary x)
  _ -> Nothing
 where
  thrownException t dictionary x = do
    e <- reifyException (Exceptional t dictionary x)
    when (mayThrow e) $ strictHere CauseStrict "An exception that is thrown has a part that may throw or not end."
    return (Throwing e)
  constant s = return (Throwing (Builtin "ErrorCall" [Text s]))
  -- The text isn't that of GHC, so it must not be shown.
  stackThrown = do
    here <- place
    modify worldStackThrown (here :)
  errorWith s = do
    e <- reify TextType s
    when (mayThrow e) $ strictHere CauseStrict "The text of an error has a part that may throw or not end."
    return (Throwing (Builtin "ErrorCall" [e]))
  failed why = do
    Place file line _ <- place
    note NotePattern "A pattern that may fail: its exception becomes an ErrorCall."
    thrown "PatternMatchFail"
    stackThrown
    constant (takeFileName file ++ ":" ++ show line ++ ": " ++ why)
