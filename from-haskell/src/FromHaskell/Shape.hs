-- |
-- Module      : FromHaskell.Shape
-- Description : What is known of a value, and what isn't
--
-- A value goes into a definition of its own, or out of a block, as a key and holes: the key says all that is known of
-- it, and each part that only a run knows is a hole with a name. Two values of one key differ in their holes alone.
module FromHaskell.Shape
  ( Shape
  , Hole (..)
  , newShape
  , shapeOf
  , shapeOfFunction
  , markShape
  , keyOf
  , holesOf
  , holdsMaskingName
  , substituteHoles
  ) where

import Control.Monad (foldM)
import Control.Monad.IO.Class (liftIO)
import Data.Char (toLower)
import Data.IORef
import Data.List (elemIndex, foldl')
import qualified Data.Map.Strict as Map

import FromHaskell.Encode
import FromHaskell.Force
import FromHaskell.Ghc
import FromHaskell.Monad
import FromHaskell.Print (printExpression)
import FromHaskell.Reify (reify)
import FromHaskell.Report
import FromHaskell.Script
import FromHaskell.Value

-- | A part that only a run knows: what it is outside, its type, and its name inside.
data Hole = Hole
  { holeExpression :: Expression
  , holeType :: ScriptType
  , holeName :: Name
  }

-- | A key and holes that are being made.
data Shape = Shape
  { shapeKey :: IORef [String]
  , shapeHoles :: IORef [Hole]
  , shapeMasking :: IORef Bool
  , shapeBound :: IORef [Name]      -- ^ names that a case inside of the value binds
  , shapeNaming :: String -> [Name] -> Translate Name
  }

-- | A shape of nothing yet; the function names a hole, by a hint and the names of the holes so far.
newShape :: (String -> [Name] -> Translate Name) -> Translate Shape
newShape naming = liftIO (Shape <$> newIORef [] <*> newIORef [] <*> newIORef False <*> newIORef [] <*> pure naming)

-- | The key so far.
keyOf :: Shape -> Translate String
keyOf shape = concat . reverse <$> liftIO (readIORef (shapeKey shape))

-- | The holes so far, in their order.
holesOf :: Shape -> Translate [Hole]
holesOf shape = reverse <$> liftIO (readIORef (shapeHoles shape))

-- | Whether a masking name was met.
holdsMaskingName :: Shape -> Translate Bool
holdsMaskingName shape = liftIO (readIORef (shapeMasking shape))

-- | Something more in the key.
markShape :: Shape -> String -> Translate ()
markShape shape s = liftIO (modifyIORef' (shapeKey shape) (s :))

-- | A hole for this part. What is met again is the same hole, but for constants.
hole :: Shape -> String -> Expression -> ScriptType -> Translate Value
hole shape hintName e t = do
  bound <- liftIO (readIORef (shapeBound shape))
  if any (`elem` bound) (variablesOf e) then boundHole shape bound e t else freeHole shape hintName e t

-- | A part that is made of names which a case inside of the value binds stays as it is.
boundHole :: Shape -> [Name] -> Expression -> ScriptType -> Translate Value
boundHole shape bound e t
  | all (`elem` bound) (variablesOf e) = do
      markShape shape ("bound" ++ show (map (`elemIndex` reverse bound) (variablesOf e)) ++ printExpression e)
      return (Residual e t)
  | otherwise = refuse CauseUnknownFunction "A choice between functions or actions, made by a pattern, goes into a function or out of a block."

freeHole :: Shape -> String -> Expression -> ScriptType -> Translate Value
freeHole shape hintName e t = do
  holes <- liftIO (readIORef (shapeHoles shape))
  case [(i, h) | (i, h) <- zip [0 :: Int ..] (reverse holes), holeExpression h == e, holeType h == t, isShared e] of
    (i, h) : _ -> do
      markShape shape ("=" ++ show i)
      return (Residual (Variable (holeName h)) t)
    [] -> do
      name <- shapeNaming shape (hintFor hintName e) (map holeName holes)
      liftIO (modifyIORef' (shapeHoles shape) (Hole e t name :))
      markShape shape ("#" ++ show t)
      return (Residual (Variable name) t)
 where
  isShared x = not (null (variablesOf x)) && not (mayThrow x)

-- | A name for a hole: the one that the source has for it, if any.
hintFor :: String -> Expression -> String
hintFor hintName e = case e of
  Variable x | hintName `elem` ["", "x", "y", "t"] -> x
  _ -> hintName

-- | A name for a parameter that the source gives none: that of its type, if the program has that.
hintFromType :: String -> Type -> String
hintFromType hintName t = case splitTyConApp_maybe t of
  Just (tyCon, _) | unnamed, isOfProgram tyCon, c : rest <- occurrence tyCon -> toLower c : rest
  _ -> hintName
 where
  unnamed = take 2 hintName == "ds" || hintName `elem` ["", "x"]
  isOfProgram tyCon = takeWhile (/= '.') (moduleOf tyCon) `notElem` ["GHC", "Data", "Control", "System"] && isAlgTyCon tyCon

-- | The value with holes in place of what only a run knows. The type, where it is known, says what can be one hole.
shapeOf :: Shape -> String -> Maybe Type -> Value -> Translate Value
shapeOf shape hintName known value0 = case known >>= encode of
  Just UnitType -> markShape shape "()" >> return value0
  Just t -> do
    e <- reify t value0
    hole shape (maybe hintName (hintFromType hintName) known) e t
  Nothing -> force value0 >>= shapeOfForced shape hintName

shapeOfForced :: Shape -> String -> Value -> Translate Value
shapeOfForced shape hintName value = case value of
  Residual e t -> hole shape hintName e t
  Shown _ _ e t -> hole shape hintName e t
  KnownNumber n -> hole shape hintName (Number n) IntType
  KnownText s -> hole shape hintName (Text s) TextType
  KnownCharacter c -> hole shape hintName (Text [c]) TextType
  TypeValue t -> mark (showType t) >> return value
  CoercionValue -> return value
  Throwing e -> do
    mark "throws"
    inner <- hole shape "e" e ExceptionType
    return $ case inner of
      Residual x _ -> Throwing x
      _ -> value
  Constructed dc as -> do
    mark ("(" ++ occurrence dc)
    as' <- mapM (\(h, a) -> shapeOf shape h Nothing a) (zip (fieldNames dc ++ repeat hintName) as)
    mark ")"
    return (Constructed dc as')
  Constructing dc types missing as -> within (occurrence dc ++ show (types, missing)) as (Constructing dc types missing)
  Primitive name missing as -> within (name ++ show missing) as (Primitive name missing)
  Doing name as here -> within name as (\as' -> Doing name as' here)
  Exceptional t d x -> within "exception" [TypeValue t, d, x] exceptionalOf
  Dictionary d as -> within (uniqueName d) as (Dictionary d)
  Method m as -> within (uniqueName m) as (Method m)
  MaskingName r -> do
    mark ("restore " ++ r)
    liftIO (writeIORef (shapeMasking shape) True)
    return value
  UnknownName v -> mark (uniqueName v) >> return value
  _ -> shapeOfCode shape value
 where
  mark = markShape shape
  within name as make = do
    mark ("(" ++ name)
    as' <- mapM (shapeOf shape "" Nothing) as
    mark ")"
    return (make as')
  exceptionalOf as = case as of
    [TypeValue t, d, x] -> Exceptional t d x
    _ -> value

-- | A name that no other thing of the program has.
uniqueName :: Id -> String
uniqueName v = occurrence v ++ show (getKey (getUnique v))

-- | Functions, and choices between values.
shapeOfCode :: Shape -> Value -> Translate Value
shapeOfCode shape value = case value of
  Closure environment v body -> do
    mark ("(\\" ++ uniqueName v)
    environment' <- shapeOfEnvironment shape [] environment (freeVariables (Lam v body))
    mark ")"
    return (Closure environment' v body)
  Named f as -> do
    mark ("(" ++ uniqueName (functionId f))
    as' <- mapM (shapeOf shape "" Nothing) (reverse as)
    f' <- shapeOfFunction shape f
    mark ")"
    return (Named f' (reverse as'))
  Chosen (ChooseIf c a b) -> do
    mark "(?"
    c' <- hole shape "b" c BoolType
    a' <- shapeOf shape "" Nothing a
    mark "|"
    b' <- shapeOf shape "" Nothing b
    mark ")"
    return (chosenBy c' (\x -> ChooseIf x a' b'))
  Chosen (ChooseCase s e arms) -> do
    mark "(case"
    e' <- hole shape "c" e s
    bound <- liftIO (readIORef (shapeBound shape))
    liftIO (writeIORef (shapeBound shape) (namesOf arms ++ bound))
    arms' <- traverse (shapeOf shape "" Nothing) arms
    liftIO (writeIORef (shapeBound shape) bound)
    mark ")"
    return (chosenBy e' (\x -> ChooseCase s x arms'))
  Chosen _ -> refuse CauseUnknownFunction "A choice between functions or actions goes into a function or out of a block."
  _ -> refuse CauseEvaluator "A value that isn't evaluated."
 where
  mark = markShape shape
  chosenBy c make = case c of
    Residual x _ -> Chosen (make x)
    _ -> value
  namesOf arms = case arms of
    MaybeArms _ x _ -> [x]
    EitherArms x _ y _ -> [y, x]
    ListArms _ x y _ -> [y, x]

shapeOfEnvironment :: Shape -> [Id] -> Environment -> VarSet -> Translate Environment
shapeOfEnvironment shape skipped environment free =
  foldM step environment {environmentValues = emptyVarEnv} (variablesInOrder free)
 where
  step made v
    | isTyVar v = do
        markShape shape (":" ++ showType (substituted environment (mkTyVarTy v)))
        return made
    | v `elem` skipped = return made
    | Just value <- lookupVarEnv (environmentValues environment) v = do
        markShape shape (occurrence v ++ "=")
        value' <- shapeOf shape (occurrence v) (Just (substituted environment (idType v))) value
        return made {environmentValues = extendVarEnv (environmentValues made) v value'}
    | otherwise = return made

-- | A function with holes in what it closes over. A group of local functions sees one environment.
shapeOfFunction :: Shape -> Function -> Translate Function
shapeOfFunction shape f
  | null group = return f
  | otherwise = do
      inner <- shapeOfEnvironment shape group outer (foldr (unionVarSet . freeVariables) emptyVarSet bodies)
      let tied = foldl' (again tied) inner group
      return f {functionEnvironment = tied}
 where
  group = functionGroup f
  outer = functionEnvironment f
  bodies = [functionBody g | v <- group, Just (Named g _) <- [lookupVarEnv (environmentValues outer) v]]
  again tied environment v = case lookupVarEnv (environmentValues outer) v of
    Just (Named g as) -> bind environment v (Named g {functionEnvironment = tied} as)
    Just value -> bind environment v value
    Nothing -> environment

-- | A value whose holes stand for these expressions.
substituteHoles :: Map.Map Name Expression -> Value -> Translate Value
substituteHoles expressions value = do
  shape <- newShape (\h _ -> return h)
  substituteIn shape expressions value

substituteIn :: Shape -> Map.Map Name Expression -> Value -> Translate Value
substituteIn shape expressions value0 = do
  value <- force value0
  let again = substituteIn shape expressions
      replaced e = case e of
        Variable x -> Map.findWithDefault e x expressions
        _ -> e
      inEnvironment environment free = foldM (stepIn again environment) environment {environmentValues = emptyVarEnv} (variablesInOrder free)
  case value of
    Residual e t -> residual (replaced e) t
    Shown _ _ e t -> residual (replaced e) t
    Throwing e -> return (Throwing (replaced e))
    Constructed dc as -> Constructed dc <$> mapM again as
    Constructing dc types missing as -> Constructing dc types missing <$> mapM again as
    Primitive name missing as -> Primitive name missing <$> mapM again as
    Doing name as here -> (\as' -> Doing name as' here) <$> mapM again as
    Exceptional t d x -> Exceptional t <$> again d <*> again x
    Dictionary d as -> Dictionary d <$> mapM again as
    Method m as -> Method m <$> mapM again as
    Closure environment v body -> (\e -> Closure e v body) <$> inEnvironment environment (freeVariables (Lam v body))
    Named f as -> do
      as' <- mapM again as
      f' <- substituteFunction again f
      return (Named f' as')
    Chosen (ChooseIf c a b) -> (\a' b' -> Chosen (ChooseIf (replaced c) a' b')) <$> again a <*> again b
    Chosen (ChooseCase s c arms) -> Chosen . ChooseCase s (replaced c) <$> traverse again arms
    _ -> return value

stepIn :: (Value -> Translate Value) -> Environment -> Environment -> Var -> Translate Environment
stepIn again environment made v = case lookupVarEnv (environmentValues environment) v of
  Just value | not (isTyVar v) -> do
    value' <- again value
    return made {environmentValues = extendVarEnv (environmentValues made) v value'}
  _ -> return made

substituteFunction :: (Value -> Translate Value) -> Function -> Translate Function
substituteFunction again f
  | null (functionGroup f) = return f
  | otherwise = do
      inner <- foldM (stepIn again outer) outer {environmentValues = emptyVarEnv} (filter (`notElem` functionGroup f) (variablesInOrder free))
      let tied = foldl' (retied tied) inner (functionGroup f)
      return f {functionEnvironment = tied}
 where
  outer = functionEnvironment f
  free = foldr (unionVarSet . freeVariables) emptyVarSet [functionBody g | v <- functionGroup f, Just (Named g _) <- [lookupVarEnv (environmentValues outer) v]]
  retied tied environment v = case lookupVarEnv (environmentValues outer) v of
    Just (Named g as) -> bind environment v (Named g {functionEnvironment = tied} as)
    Just value -> bind environment v value
    Nothing -> environment
