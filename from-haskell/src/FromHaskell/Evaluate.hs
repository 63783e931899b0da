{-# LANGUAGE LambdaCase #-}

-- |
-- Module      : FromHaskell.Evaluate
-- Description : Evaluation of Core
--
-- Expressions, application and global names. Evaluation is lazy: an argument is a thunk, and what nothing needs leaves
-- nothing in the script.
module FromHaskell.Evaluate
  ( evaluate
  , apply
  , applyAll
  , saturate
  , construct
  , evaluateBody
  , applyPrelude
  ) where

import Control.Monad (foldM, forM, forM_, when, zipWithM)
import Control.Monad.IO.Class (liftIO)
import Data.IORef
import Data.List (foldl', isPrefixOf)
import qualified Data.Map.Strict as Map
import Data.Maybe (fromMaybe, isJust, isNothing)

import FromHaskell.Case (caseOf)
import FromHaskell.Encode
import FromHaskell.Force
import FromHaskell.Ghc
import FromHaskell.Known
import FromHaskell.Method (applyMethod)
import FromHaskell.Monad
import FromHaskell.Primitive (runPrimitive)
import FromHaskell.Print (printType)
import FromHaskell.Report
import FromHaskell.Script hiding (Let)
import FromHaskell.Specialise (isOwnFile, specialise)
import FromHaskell.Value

-- | The value of an expression.
evaluate :: Environment -> CoreExpr -> Translate Value
evaluate environment = \case
  Var v
    | Just value <- lookupVarEnv (environmentValues environment) v -> force value >>= saturate
    | otherwise -> global v >>= saturate
  Lit l -> case literalValue l of
    Just (LiteralNumber n) -> return (KnownNumber n)
    Just (LiteralCharacter c) -> return (KnownCharacter c)
    Just (LiteralText s) -> return (KnownText s)
    Nothing -> refuse CauseLiteral "A floating point number or an address."
  App f a -> do
    function <- evaluate environment f
    argument <- delay environment a
    apply function argument
  Lam v body -> return (Closure environment v body)
  Let (NonRec v e) body -> do
    value <- delay environment e
    evaluate (bind environment v value) body
  Let (Rec pairs) body -> do
    inner <- recursive environment pairs
    evaluate inner body
  Case scrutinee binder t alternativesOf -> do
    value <- evaluate environment scrutinee
    caseOf environment (substituted environment t) (binder : lookedAt scrutinee) alternativesOf value
  Cast e _ -> evaluate environment e
  Tick (SourceNote s _) e
    | not (isOwnFile (placeFile (spanPlace s))) -> at (spanPlace s) (evaluate environment e)
  Tick _ e -> evaluate environment e
  Type t -> return (TypeValue (substituted environment t))
  Coercion _ -> return CoercionValue

-- | The variable that a case looks at: in the branches its constructor is known.
lookedAt :: CoreExpr -> [Var]
lookedAt = \case
  Var v | isLocalId v -> [v]
  Tick _ e -> lookedAt e
  Cast e _ -> lookedAt e
  _ -> []

-- | The value of an argument, evaluated only where there is nothing to evaluate.
delay :: Environment -> CoreExpr -> Translate Value
delay environment e = case e of
  Var v | Just value <- lookupVarEnv (environmentValues environment) v -> return value
  Lit _ -> evaluate environment e
  Lam _ _ -> evaluate environment e
  Type t -> return (TypeValue (substituted environment t))
  Coercion _ -> return CoercionValue
  Cast inner _ -> delay environment inner
  _ -> thunk (evaluate environment e)

-- | The environment with a group of definitions that see each other.
recursive :: Environment -> [(Id, CoreExpr)] -> Translate Environment
recursive environment pairs = do
  refs <- forM pairs $ \_ -> liftIO (newIORef (Waiting (return CoercionValue)))
  let group = map fst pairs
      inner = foldl' (\e (v, x) -> bind e v x) environment (zip group values)
      values = zipWith value pairs refs
      value (v, e) ref
        | isFunction v = Named (Function v e inner True group False) []
        | otherwise = Thunk ref
  here <- place
  forM_ (zip pairs refs) $ \((_, e), ref) -> do
    waiting <- suspended (at here (evaluate inner e))
    liftIO (writeIORef ref (Waiting waiting))
  return inner
 where
  isFunction v = case resultWhenApplied (substituted environment (idType v)) [] of
    Nothing -> True
    Just t -> isJust (ioResult t)

-- | A function applied to one argument more.
apply :: Value -> Value -> Translate Value
apply function argument =
  force function >>= \case
    Closure environment v body -> evaluate (bind environment v argument) body
    Constructing dc types missing came
      | types > 0 -> construct dc (types - 1) missing came
      | otherwise -> construct dc 0 (missing - 1) (argument : came)
    Chosen choice -> overChoice (`apply` argument) choice
    Throwing e -> return (Throwing e)
    Primitive name missing came
      | missing > 1 -> return (Primitive name (missing - 1) (argument : came))
      | otherwise -> runPrimitive name (reverse (argument : came))
    Named f came -> saturate (Named f (argument : came))
    Method selector came -> applyMethod selector (argument : came)
    Dictionary d came -> return (Dictionary d (argument : came))
    MaskingName r -> return (Primitive "restore" 1 [argument, MaskingName r])
    UnknownName v -> notKnown v
    Residual _ t -> refuse CauseUnknownFunction ("A value of the type " ++ printType t ++ " is applied.")
    Doing {} -> refuse CauseEvaluator "An action is taken apart into the steps that it is made of inside of GHC."
    _ -> refuse CauseEvaluator "Something that is no function is applied."

-- | A function applied to these arguments.
applyAll :: Value -> [Value] -> Translate Value
applyAll = foldM apply

-- | A function of the prelude, applied.
applyPrelude :: String -> [Value] -> Translate Value
applyPrelude name arguments = do
  prelude <- get worldPrelude
  case Map.lookup name prelude of
    Just f -> applyAll (Named f []) arguments
    Nothing -> refuse CauseEvaluator ("The prelude has no function " ++ name ++ ".")

-- | A constructor with the arguments that came, the last first.
construct :: DataCon -> Int -> Int -> [Value] -> Translate Value
construct dc 0 0 came
  | isNewTyCon (dataConTyCon dc) = force (last came)
  | occurrence dc `elem` ["I#", "C#", "IS"], moduleOf dc `elem` ["GHC.Types", "GHC.Num.Integer"] = force (last came)
  | otherwise = return (Constructed dc (reverse came))
construct dc types missing came = return (Constructing dc types missing came)

-- | What a global name is.
global :: Id -> Translate Value
global v
  | Just dc <- isDataConId_maybe v = constructorOf dc
  | otherwise = do
      program <- get worldProgram
      prelude <- get worldPrelude
      let name = occurrence v
          moduleName = moduleOf v
          known
            | moduleName == "FromHaskellPrelude", Just arity <- lookup name preludePrimitives = Just (name, arity)
            | isJust (lookupVarEnv program v) || isJust (isClassOpId_maybe v) = Nothing
            | otherwise = (,) name <$> functionArity moduleName name
      case (known, lookupVarEnv program v) of
        (Just (primitive, 0), _) -> runPrimitive primitive []
        (Just (primitive, arity), _) -> return (Primitive primitive arity [])
        (_, Just f) -> return (Named f [])
        _
          | isJust (isClassOpId_maybe v) -> return (Method v [])
          | isJust (refusedNames name) -> return (UnknownName v)
          | moduleName /= "Control.Monad.Catch", Just f <- Map.lookup (preludeName name) prelude -> return (Named f [])
          | isDFunId v || isInstance v -> return (Dictionary v [])
          | isLowLevel v -> return (UnknownName v)
          | Just e <- maybeUnfoldingTemplate (unfoldingOf v) -> evaluate emptyEnvironment e
          | otherwise -> return (UnknownName v)
 where
  constructorOf dc
    | not (null (dataConEqSpec dc)), v /= dataConWorkId dc, Just e <- maybeUnfoldingTemplate (unfoldingOf v) = evaluate emptyEnvironment e
    | otherwise = construct dc (length (dataConUnivTyVars dc)) (constructorArity dc) []
  constructorArity dc = length (dataConExTyCoVars dc) + length (dataConTheta dc) + dataConSourceArity dc
  isInstance x = "$f" `isPrefixOf` occurrence x && isDictionary (snd (splitForAllTys (idType x)))

-- | Whether a function of a library is made of the steps that an action has inside of GHC.
isLowLevel :: Id -> Bool
isLowLevel v = answers (idType v) || occurrence v `elem` ["runRW#", "noinline"]
 where
  answers t
    | Just (_, body) <- splitForAllTy_maybe t = answers body
    | Just (_, result) <- splitFunction t = answers result
    | otherwise = typeName t `elem` ["IO", "ST", "STM", "State#"]

-- | A function with a name, called where it has all its arguments.
saturate :: Value -> Translate Value
saturate value = case value of
  Named f came ->
    let arguments = reverse came
        t = substituted (functionEnvironment f) (idType (functionId f))
     in case resultWhenApplied t arguments of
          Nothing -> return value
          Just result
            | isNothing (ioResult result) -> callPure f arguments result
            | functionRecursive f || functionOfProgram f -> Doing "call" [value, TypeValue result] <$> place
            | otherwise -> evaluateBody f arguments
  _ -> return value

-- | The body of a function at these arguments.
evaluateBody :: Function -> [Value] -> Translate Value
evaluateBody f arguments = do
  body <- evaluate (functionEnvironment f) (functionBody f)
  applyAll body arguments

-- | A call of a function that is no action. It is evaluated here where it calls nothing that is recursive, or where an
-- argument says how far the recursion goes; else it stays as a call.
callPure :: Function -> [Value] -> Type -> Translate Value
callPure f arguments result
  | null arguments && null (functionGroup f) = constantOf f
  | not (functionRecursive f) || isDictionary result = evaluateBody f arguments
  | otherwise = case encode result of
      Nothing ->
        unrolled f (evaluateBody f arguments) `orTooDeep` \_ ->
          refuse CauseForms ("The recursive function " ++ name ++ " gives what a script can't keep, and doesn't end on what is known.")
      Just t -> do
        known <- or <$> zipWithM decides (argumentTypes (substituted (functionEnvironment f) (idType (functionId f))) arguments) arguments
        depth <- depthOf f
        if not known
          then remaining t
          else
            if depth > 0
              then unrolled f (evaluateBody f arguments)
              else trial (unrolled f (evaluateBody f arguments) >>= settled t) `orTooDeep` \own -> if own then remaining t else return CoercionValue
 where
  name = occurrence (functionId f)
  orTooDeep = catchTooDeep (functionId f)
  -- A list or number that depends on what isn't known is better made by a call.
  settled t value = case value of
    Chosen _ -> remaining t
    _ -> return value
  remaining t = do
    here <- place
    (definition, holes, _) <- specialise f arguments result False
    put worldPlace here
    total <- get worldTotal
    open <- get worldOpen
    return (Residual (Call definition (definition `notElem` total && definition `notElem` open) holes t) t)
  decides (Just t) a
    | isNothing (splitFunction t), not (isDictionary t), isNothing (ioResult t) = do
        value <- attempt (trial (force a))
        return $ case value of
          Right (KnownNumber _) -> True
          Right (KnownText _) -> True
          Right (KnownCharacter _) -> True
          Right (Constructed dc _) -> not (isClassTyCon (dataConTyCon dc)) && length (tyConDataCons (dataConTyCon dc)) > 1
          _ -> False
  decides _ _ = return False

constantOf :: Function -> Translate Value
constantOf f = do
  constants <- get worldConstants
  case lookupVarEnv constants (functionId f) of
    Just value -> force value
    Nothing -> do
      value <- thunk (evaluate emptyEnvironment (functionBody f))
      modify worldConstants (\m -> extendVarEnv m (functionId f) value)
      force value

depthOf :: Function -> Translate Int
depthOf f = do
  depths <- get worldDepth
  return (fromMaybe 0 (lookupVarEnv depths (functionId f)))

-- | A call of a recursive function that is evaluated here: at most 40 inside of each other, and 3,000 below the first.
unrolled :: Function -> Translate Value -> Translate Value
unrolled f act = do
  depths <- get worldDepth
  work <- get worldWork
  limits <- get worldWorkLimit
  let key = functionId f
      depth = fromMaybe 0 (lookupVarEnv depths key)
      limit = fromMaybe (work + 3000) (lookupVarEnv limits key)
      leave = do
        put worldDepth depths
        when (depth == 0) $ modify worldWorkLimit (`delVarEnv` key)
  put worldWork (work + 1)
  if depth > 40 || work > limit
    then tooDeep key
    else do
      when (depth == 0) $ modify worldWorkLimit (\l -> extendVarEnv l key limit)
      put worldDepth (extendVarEnv depths key (depth + 1))
      value <- act `finallyDo` leave
      leave
      return value
