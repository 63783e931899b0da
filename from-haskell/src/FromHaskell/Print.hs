-- |
-- Module      : FromHaskell.Print
-- Description : The text of a script
--
-- Prints definitions in the syntax of the language of scripts, in lines of at most 100 columns.
module FromHaskell.Print
  ( printDefinition
  , printType
  , printExpression
  ) where

import FromHaskell.Layout
import FromHaskell.Script

-- | The definition, with the line above it that says where it comes from.
printDefinition :: Definition -> String
printDefinition d = "-- " ++ definitionOrigin d ++ "\n" ++ render 100 (header <> text " = " <> block (definitionBody d) <> text ";") ++ "\n"
 where
  header = nest 4 (group (separated (lineOr " ") (text (definitionName d) : map parameter (definitionParameters d)) <> result))
  parameter (x, t) = text ("(" ++ x ++ " :: " ++ printType t ++ ")")
  result = lineOr " " <> text (":: IO " ++ atomType (definitionResult d))

-- | The type as it is written.
printType :: ScriptType -> String
printType t = case t of
  MaybeType a -> "Maybe " ++ atomType a
  EitherType a b -> "Either " ++ atomType a ++ " " ++ atomType b
  CellType a -> "MVar " ++ atomType a
  _ -> atomType t

atomType :: ScriptType -> String
atomType t = case t of
  IntType -> "Int"
  BoolType -> "Bool"
  TextType -> "Text"
  ThreadType -> "ThreadId"
  ExceptionType -> "SomeException"
  UnitType -> "()"
  PairType a b -> "(" ++ printType a ++ ", " ++ printType b ++ ")"
  ListType a -> "[" ++ printType a ++ "]"
  KeptType name -> "(" ++ name ++ ")"
  _ -> "(" ++ printType t ++ ")"

-- | The expression on one line, for messages and keys.
printExpression :: Expression -> String
printExpression = render maxBound . group . expression 0

-- Levels: 0 open forms, 1 ||, 2 &&, 3 comparison, 4 : and ++, 5 sum, 6 product, 7 application, 8 atom.
expression :: Int -> Expression -> Layout
expression level e = case e of
  Variable x -> text x
  Constant x -> text x
  Number n
    | n == -9223372036854775808 -> text "(-9223372036854775807 - 1)"
    | n < 0 -> text ("(-" ++ show (negate n) ++ ")")
    | otherwise -> text (show n)
  Text s -> text ("\"" ++ concatMap escape s ++ "\"")
  Truth b -> text (show b)
  Unit -> text "()"
  Binary o a b -> binary level o a b
  Builtin f as -> applied f as
  JustOf a -> applied "Just" [a]
  NothingOf t -> constantAt ("Nothing @" ++ atomType t)
  LeftOf s t a -> applied ("Left @" ++ atomType s ++ " @" ++ atomType t) [a]
  RightOf s t a -> applied ("Right @" ++ atomType s ++ " @" ++ atomType t) [a]
  EmptyOf t -> constantAt ("[] @" ++ atomType t)
  ListOf as -> group (text "[" <> nest 1 (separated (text "," <> lineOr " ") (map (expression 0) as)) <> text "]")
  Pair a b -> group (text "(" <> nest 1 (expression 0 a <> text "," <> lineOr " " <> expression 0 b) <> text ")")
  Decide _ c -> decision level c
  Call f _ as _ -> applied f as
  Raise _ a -> applied "throw" [a]
 where
  constantAt s = enclosed (level > 7) (text s)
  applied f as = enclosed (level > 7) (group (nest 2 (separated (lineOr " ") (text f : map (expression 8) as))))

binary :: Int -> String -> Expression -> Expression -> Layout
binary level o a b = enclosed (level > own) (group (nest 2 (expression left a <> text (' ' : o) <> lineOr " " <> expression right b)))
 where
  (own, left, right) = precedence o

precedence :: String -> (Int, Int, Int)
precedence o
  | o == "||" = (1, 1, 2)
  | o == "&&" = (2, 2, 3)
  | o `elem` ["==", "/=", "<", "<=", ">", ">="] = (3, 4, 4)
  | o `elem` [":", "++"] = (4, 5, 4)
  | o `elem` ["+", "-"] = (5, 5, 6)
  | otherwise = (6, 6, 7)

decision :: Int -> Choice Expression -> Layout
decision level c = case c of
  ChooseIf x (Truth True) (Truth False) -> expression level x
  ChooseIf x (Truth False) (Truth True) -> expression level (Builtin "not" [x])
  ChooseIf x a (Truth False) -> binary level "&&" x a
  ChooseIf x (Truth True) b -> binary level "||" x b
  ChooseIf x a b -> open (group (text "if " <> expression 0 x <> nest 2 (lineOr " " <> text "then " <> expression 0 a <> lineOr " " <> text "else " <> expression 0 b)))
  ChooseCase _ x arms -> open (caseOf x (fmap (expression 0) arms))
  Evaluated x _ a b -> open (group (text ("let " ++ x ++ " = ") <> expression 0 a <> text " in" <> lineOr " " <> expression 0 b))
 where
  open = enclosed (level > 0)

caseOf :: Expression -> Arms Layout -> Layout
caseOf x arms = group (text "case " <> expression 0 x <> text " of {" <> nest 2 (lineOr " " <> a <> text ";" <> lineOr " " <> b) <> text " }")
 where
  (a, b) = case arms of
    MaybeArms n y j -> (text "Nothing -> " <> n, text ("Just " ++ y ++ " -> ") <> j)
    EitherArms y l z r -> (text ("Left " ++ y ++ " -> ") <> l, text ("Right " ++ z ++ " -> ") <> r)
    ListArms n y z c -> (text "[] -> " <> n, text (y ++ " : " ++ z ++ " -> ") <> c)

enclosed :: Bool -> Layout -> Layout
enclosed True l = text "(" <> l <> text ")"
enclosed False l = l

escape :: Char -> String
escape c = case c of
  '"' -> "\\\""
  '\\' -> "\\\\"
  '\n' -> "\\n"
  '\t' -> "\\t"
  _ -> [c]

block :: Block -> Layout
block b = group (text "{" <> nest 2 (lineOr " " <> separated (text ";" <> lineOr " ") (map statement b)) <> text " }")

statement :: Statement -> Layout
statement s = case s of
  Let x e -> text ("let " ++ x ++ " = ") <> nest 2 (expression 0 e)
  Do Nothing a _ -> action a
  Do (Just x) a _ -> text (x ++ " <- ") <> action a

action :: Action -> Layout
action a = case a of
  CallAction f as -> group (nest 4 (separated (lineOr " ") (text f : map (expression 8) as)))
  Form ps -> foldr1 (\x y -> x <> text " " <> y) (map piece ps)
  Branch (ChooseIf x p q) -> text "if " <> expression 0 x <> text " then " <> block p <> text " else " <> block q
  Branch (ChooseCase _ x arms) -> caseOf x (fmap block arms)
  Branch (Evaluated x _ e b) -> block (Do (Just x) (returnAction e) UnitType : b)

piece :: Piece -> Layout
piece p = case p of
  Word w -> text w
  At t -> text ('@' : atomType t)
  Argument e -> expression 8 e
  Body b -> block b
  Binder x -> text x
