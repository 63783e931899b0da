{-# LANGUAGE DeriveTraversable #-}

-- |
-- Module      : FromHaskell.Script
-- Description : The script that is left
--
-- The first-order program that the evaluator leaves: the syntax of the language of scripts, with three additions that
-- 'FromHaskell.Hoist' takes out before anything is printed ('Call', 'Raise' and what holds one).
module FromHaskell.Script
  ( Name
  , ScriptType (..)
  , Arms (..)
  , Choice (..)
  , Expression (..)
  , Piece (..)
  , Action (..)
  , Statement (..)
  , Block
  , Definition (..)
  , pairType
  , pairOf
  , decide
  , first
  , second
  , throwAction
  , returnAction
  , mayThrow
  , needsAction
  , variablesOf
  , freeOfBlock
  , isFlat
  , partsOf
  , expressionsOf
  , overExpressions
  , overTypes
  ) where

import FromHaskell.Report (Place)

-- | A name of the script.
type Name = String

-- | The types of the language that a value can have here.
data ScriptType
  = IntType
  | BoolType
  | TextType
  | ThreadType
  | ExceptionType
  | UnitType
  | PairType ScriptType ScriptType
  | MaybeType ScriptType
  | EitherType ScriptType ScriptType
  | ListType ScriptType
  | CellType ScriptType
  | KeptType String                            -- ^ functions or actions of this type, of which a cell keeps tags; no type of the language
  deriving (Eq, Ord, Show)

-- | The alternatives of a @case@, with the names that they bind.
data Arms a
  = MaybeArms a Name a
  | EitherArms Name a Name a
  | ListArms a Name Name a
  deriving (Eq, Foldable, Functor, Ord, Show, Traversable)

-- | A choice that is made when the script runs. 'Evaluated' is none: it evaluates an expression, names what came of it,
-- and goes on.
data Choice a
  = ChooseIf Expression a a
  | ChooseCase ScriptType Expression (Arms a)   -- ^ the type is that of what is looked at
  | Evaluated Name ScriptType Expression a
  deriving (Eq, Foldable, Functor, Ord, Show, Traversable)

-- | An expression of the script.
data Expression
  = Variable Name
  | Constant Name                              -- ^ one of the exceptions that the language names
  | Number Integer
  | Text String
  | Truth Bool
  | Unit
  | Binary String Expression Expression
  | Builtin String [Expression]                -- ^ @show@, @fst@, @div@, @not@, @ErrorCall@ ..
  | NothingOf ScriptType
  | JustOf Expression
  | LeftOf ScriptType ScriptType Expression
  | RightOf ScriptType ScriptType Expression
  | EmptyOf ScriptType
  | ListOf [Expression]
  | Pair Expression Expression
  | Decide ScriptType (Choice Expression)      -- ^ of this type
  | Call Name Bool [Expression] ScriptType     -- ^ a call that only an action can make, and whether it may throw or not end
  | Raise ScriptType Expression                -- ^ a throw inside of an expression
  deriving (Eq, Ord, Show)

-- | A part of a form: a word, a type behind @\@@, an argument, a block, or a name that it binds.
data Piece
  = Word String
  | At ScriptType
  | Argument Expression
  | Body Block
  | Binder Name
  deriving (Eq, Ord, Show)

-- | An action of the script.
data Action
  = Form [Piece]
  | CallAction Name [Expression]
  | Branch (Choice Block)                      -- ^ never 'Evaluated'
  deriving (Eq, Ord, Show)

-- | A statement: an action whose result has this type, or a definition of a name.
data Statement
  = Do (Maybe Name) Action ScriptType
  | Let Name Expression
  deriving (Eq, Ord, Show)

-- | Statements, of which the last is an action.
type Block = [Statement]

-- | A function of the script. All that is made here are action functions.
data Definition = Definition
  { definitionName :: Name
  , definitionParameters :: [(Name, ScriptType)]
  , definitionResult :: ScriptType
  , definitionBody :: Block
  , definitionOrigin :: String                 -- ^ the line above it: where it comes from
  , definitionPlace :: Place
  }
  deriving (Eq, Show)

-- | The type of a row of values.
pairType :: [ScriptType] -> ScriptType
pairType [] = UnitType
pairType types = foldr1 PairType types

-- | A pair, and not the pair of the two parts of one pair.
pairOf :: Expression -> Expression -> Expression
pairOf (Builtin "fst" [x]) (Builtin "snd" [y]) | x == y && not (mayThrow x) = x
pairOf a b = Pair a b

-- | A choice, and not one that makes again what it takes apart.
decide :: ScriptType -> Choice Expression -> Expression
decide t choice = case choice of
  ChooseIf c (Truth True) (Truth False) -> c
  ChooseIf c a b | a == b, not (mayThrow c) -> a
  ChooseCase s e (EitherArms x a y b)
    | s == t, LeftOf l _ a' <- a, RightOf _ r b' <- b, same l x a', same r y b' -> e
  ChooseCase s e (EitherArms x (RightOf l r a) y (RightOf l' r' b))
    | l == l', r == r', not (mayThrow e) -> RightOf l r (decide r (ChooseCase s e (EitherArms x a y b)))
  ChooseCase s e (MaybeArms (NothingOf _) x (JustOf b))
    | s == t, MaybeType inner <- t, same inner x b -> e
  ChooseCase s e (ListArms (EmptyOf _) x y (Binary ":" (Variable x') (Variable y')))
    | s == t, x == x', y == y' -> e
  _ -> Decide t choice
 where
  same s x e = e == Variable x || (s == UnitType && e == Unit)

-- | The parts of a pair, without the pair where that evaluates nothing less.
first, second :: Expression -> Expression
first (Pair a b) | not (mayThrow b) = a
first e = Builtin "fst" [e]
second (Pair a b) | not (mayThrow a) = b
second e = Builtin "snd" [e]

-- | The action that throws, at the type that is wanted.
throwAction :: ScriptType -> Expression -> Statement
throwAction t e = Do Nothing (Form [Word "throwIO", At t, Argument e]) t

-- | The action that does nothing but evaluate.
returnAction :: Expression -> Action
returnAction e = Form [Word "return", Argument e]

-- | The expressions that an expression is made of.
partsOf :: Expression -> [Expression]
partsOf e = case e of
  Binary _ a b -> [a, b]
  Builtin _ as -> as
  JustOf a -> [a]
  LeftOf _ _ a -> [a]
  RightOf _ _ a -> [a]
  ListOf as -> as
  Pair a b -> [a, b]
  Decide _ c -> scrutinee c : foldr (:) [] c
  Call _ _ as _ -> as
  Raise _ a -> [a]
  _ -> []
 where
  scrutinee c = case c of
    ChooseIf x _ _ -> x
    ChooseCase _ x _ -> x
    Evaluated _ _ x _ -> x

-- | Whether evaluation may throw or not end. What this says no of can be evaluated anywhere.
mayThrow :: Expression -> Bool
mayThrow e = case e of
  Call _ partial as _ -> partial || any mayThrow as
  Raise _ _ -> True
  Builtin f [a, b] | f `elem` ["div", "mod"] -> mayThrow a || mayThrow b || not (safeDivisor b)
  _ -> any mayThrow (partsOf e)
 where
  safeDivisor (Number n) = n /= 0 && n /= -1
  safeDivisor _ = False

-- | Whether only an action can evaluate it.
needsAction :: Expression -> Bool
needsAction e = case e of
  Call {} -> True
  Raise {} -> True
  _ -> any needsAction (partsOf e)

-- | The variables of an expression, also those that it binds itself.
variablesOf :: Expression -> [Name]
variablesOf e = case e of
  Variable x -> [x]
  _ -> concatMap variablesOf (partsOf e)

-- | The variables and masking names that a block uses.
freeOfBlock :: Block -> [Name]
freeOfBlock = concatMap statement
 where
  statement (Let _ e) = variablesOf e
  statement (Do _ a _) = action a
  action (CallAction _ as) = concatMap variablesOf as
  action (Form ps) = concatMap piece ps
  action (Branch c) = scrutinee c ++ concatMap freeOfBlock (foldr (:) [] c)
  piece (Argument e) = variablesOf e
  piece (Body b) = freeOfBlock b
  piece (Binder x) = [x]
  piece _ = []
  scrutinee c = case c of
    ChooseIf x _ _ -> variablesOf x
    ChooseCase _ x _ -> variablesOf x
    Evaluated _ _ x _ -> variablesOf x

-- | Whether a value of the type has no parts that Haskell could leave unevaluated.
isFlat :: ScriptType -> Bool
isFlat t = t `elem` [IntType, BoolType, ThreadType, UnitType] || isCell t
 where
  isCell (CellType _) = True
  isCell _ = False

-- | The expressions that stand in a block.
expressionsOf :: Block -> [Expression]
expressionsOf = concatMap statement
 where
  statement (Let _ e) = [e]
  statement (Do _ a _) = action a
  action (CallAction _ as) = as
  action (Form ps) = concatMap piece ps
  action (Branch c) = scrutinee c : concatMap expressionsOf (foldr (:) [] c)
  piece (Argument e) = [e]
  piece (Body b) = expressionsOf b
  piece _ = []
  scrutinee c = case c of
    ChooseIf x _ _ -> x
    ChooseCase _ x _ -> x
    Evaluated _ _ x _ -> x

-- | The definition with this done to each expression in it, the innermost first.
overExpressions :: (Expression -> Expression) -> Definition -> Definition
overExpressions f d = d {definitionBody = block (definitionBody d)}
 where
  block = map statement
  statement (Let x e) = Let x (within e)
  statement (Do x a t) = Do x (action a) t
  action a = case a of
    CallAction g as -> CallAction g (map within as)
    Form ps -> Form (map piece ps)
    Branch c -> Branch (decided block c)
  piece p = case p of
    Argument e -> Argument (within e)
    Body b -> Body (block b)
    _ -> p
  decided :: (a -> a) -> Choice a -> Choice a
  decided inside c = case fmap inside c of
    ChooseIf x a b -> ChooseIf (within x) a b
    ChooseCase t x arms -> ChooseCase t (within x) arms
    Evaluated x t e a -> Evaluated x t (within e) a
  within e = f $ case e of
    Binary o a b -> Binary o (within a) (within b)
    Builtin g as -> Builtin g (map within as)
    JustOf a -> JustOf (within a)
    LeftOf s t a -> LeftOf s t (within a)
    RightOf s t a -> RightOf s t (within a)
    ListOf as -> ListOf (map within as)
    Pair a b -> Pair (within a) (within b)
    Decide t c -> Decide t (decided within c)
    Call g p as t -> Call g p (map within as) t
    Raise t a -> Raise t (within a)
    _ -> e

-- | The definition with this done to each type in it.
overTypes :: (ScriptType -> ScriptType) -> Definition -> Definition
overTypes f d =
  d
    { definitionParameters = [(x, f t) | (x, t) <- definitionParameters d]
    , definitionResult = f (definitionResult d)
    , definitionBody = block (definitionBody (overExpressions typed d))
    }
 where
  block = map statement
  statement s = case s of
    Let _ _ -> s
    Do x a t -> Do x (action a) (f t)
  action a = case a of
    CallAction _ _ -> a
    Form ps -> Form (map piece ps)
    Branch c -> Branch (scrutinee (fmap block c))
  piece p = case p of
    At t -> At (f t)
    Body b -> Body (block b)
    _ -> p
  scrutinee :: Choice a -> Choice a
  scrutinee c = case c of
    ChooseCase t x arms -> ChooseCase (f t) x arms
    Evaluated x t e a -> Evaluated x (f t) e a
    ChooseIf {} -> c
  typed e = case e of
    NothingOf t -> NothingOf (f t)
    LeftOf s t a -> LeftOf (f s) (f t) a
    RightOf s t a -> RightOf (f s) (f t) a
    EmptyOf t -> EmptyOf (f t)
    Decide t c -> Decide (f t) (scrutinee c)
    Call g p as t -> Call g p as (f t)
    Raise t a -> Raise (f t) a
    _ -> e
