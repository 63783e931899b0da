-- |
-- Module      : FromHaskell.Integers
-- Description : Integers within 64 bits
--
-- Sums, differences and products of Integers. Where no run can come near the end of 64 bits they are those of Int; else
-- they are calls of functions that throw the mark of a text that is too long, so that a run never goes on with a wrong
-- number.
module FromHaskell.Integers
  ( integers
  , integerNames
  , callsOf
  ) where

import FromHaskell.Script

-- | The texts of the checking functions, where they are needed, and the definitions: with operations of Int where not.
integers :: [Definition] -> (String, [Definition])
integers definitions
  | all small found = ("", map (overExpressions unchecked) definitions)
  | otherwise = (helpers, map (overExpressions withoutConversion) definitions)
 where
  found = concatMap (concatMap operations . expressionsOf . definitionBody) definitions

-- | Names that no function of the program can have.
integerNames :: [Name]
integerNames = ["integerPlus", "integerMinus", "integerTimes", "integerBeyond"]

-- | Whether a run of at most 4,000,000 steps can do it as often as it likes without leaving 64 bits.
small :: Expression -> Bool
small e = case e of
  Builtin f [a, b] | f `elem` ["integerPlus", "integerMinus"] -> any isSmall [a, b]
  _ -> False
 where
  isSmall (Number n) = abs n <= 1000
  isSmall _ = False

-- | The operations on Integers in an expression.
operations :: Expression -> [Expression]
operations e = own ++ concatMap operations (partsOf e)
 where
  own = case e of
    Builtin f _ | take 7 f == "integer" -> [e]
    _ -> []

unchecked, withoutConversion :: Expression -> Expression
unchecked e = case e of
  Builtin "integerPlus" [a, b] -> Binary "+" a b
  Builtin "integerMinus" [a, b] -> Binary "-" a b
  Builtin "integerTimes" [a, b] -> Binary "*" a b
  _ -> withoutConversion e
withoutConversion e = case e of
  Builtin "integerOf" [a] -> a
  _ -> e

-- | The checking functions. They are pure; 131,072 bytes of text are more than a script may have.
helpers :: String
helpers =
  unlines
    [ "-- Integers within 64 bits: beyond them `text too long` is thrown, which no text of the program can be."
    , "integerBeyond :: Int = let a = \"0123456789abcdef\" in let b = a ++ a ++ a ++ a in"
    , "  let c = b ++ b ++ b ++ b in let d = c ++ c ++ c ++ c in let e = d ++ d ++ d ++ d in"
    , "  let f = e ++ e ++ e ++ e in let g = f ++ f ++ f ++ f in if g ++ g == \"\" then 0 else 1;"
    , "integerPlus (a :: Int) (b :: Int) :: Int = let c = a + b in"
    , "  if (a < 0) == (b < 0) && (a < 0) /= (c < 0) then integerBeyond else c;"
    , "integerMinus (a :: Int) (b :: Int) :: Int = let c = a - b in"
    , "  if (a < 0) /= (b < 0) && (a < 0) /= (c < 0) then integerBeyond else c;"
    , "integerTimes (a :: Int) (b :: Int) :: Int ="
    , "  if a == 0 then 0 else if a == -1 then integerMinus 0 b else"
    , "    let c = a * b in if div c a == b then c else integerBeyond;"
    ]

-- | The functions that a block calls.
callsOf :: Block -> [Name]
callsOf = concatMap statement
 where
  statement s = case s of
    Let _ _ -> []
    Do _ a _ -> action a
  action a = case a of
    CallAction f _ -> [f]
    Form ps -> concatMap piece ps
    Branch c -> concatMap callsOf (foldr (:) [] c)
  piece p = case p of
    Body b -> callsOf b
    _ -> []
