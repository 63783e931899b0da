-- |
-- Module      : FromHaskell.Emit
-- Description : Actions
--
-- Running an action of the evaluator writes statements into the block that is being made, and answers the value that the
-- action would.
module FromHaskell.Emit
  ( emitAction
  ) where

import Control.Monad (foldM, when, (>=>))
import Data.Either (fromRight)
import Data.Maybe (fromMaybe, isJust)
import qualified Data.Set as Set

import FromHaskell.Encode
import {-# SOURCE #-} FromHaskell.Evaluate (apply, evaluateBody, saturate)
import FromHaskell.Exceptions
import FromHaskell.Force
import FromHaskell.Ghc hiding (Let)
import FromHaskell.Join
import FromHaskell.Language (Answer (..), Form (..), Part (..), formOf)
import FromHaskell.Monad
import FromHaskell.Print (printType)
import FromHaskell.Reify
import FromHaskell.Report
import qualified FromHaskell.Script as Script
import FromHaskell.Script hiding (Form)
import FromHaskell.Shape
import FromHaskell.Specialise
import FromHaskell.Value

-- | Runs an action: the type of its answer where it is known, a name for the answer, the action.
emitAction :: Maybe Type -> String -> Value -> Translate Value
emitAction answer hint value0 = do
  value <- force value0 >>= saturate
  case value of
    Throwing e -> throwHere answer e
    Chosen (Evaluated x t e inner) -> do
      e' <- hoist e
      emit (Do (Just x) (returnAction e') t)
      emitAction answer hint inner
    Chosen (ChooseIf c a b) -> do
      c' <- hoist c
      branch (ChooseIf c' a b)
    Chosen (ChooseCase s c arms) -> do
      c' <- hoist c
      branch (ChooseCase s c' arms)
    Doing name arguments here -> do
      outer <- place
      at (if here == nowhere then outer else here) (emitKnown answer hint name arguments)
    UnknownName name -> notKnown name
    Residual _ t -> refuse CauseUnknownFunction ("An action that isn't known, a value of the type " ++ printType t ++ ", is run.")
    Closure {} -> refuse CauseEvaluator "An action that is made of the steps that it has inside of GHC."
    Primitive name missing _ -> refuse CauseEvaluator ("`" ++ name ++ "` lacks " ++ show missing ++ " arguments.")
    Method m _ -> refuse CauseEvaluator ("The method " ++ occurrence m ++ " at a monad that isn't known.")
    _ -> refuse CauseEvaluator "An action that isn't known."
 where
  branch choice = emitBranches answer hint (fmap (emitAction answer "") choice)

-- | A choice between actions.
emitBranches :: Maybe Type -> String -> Choice (Translate Value) -> Translate Value
emitBranches answer hint choice = do
  joined <- joinBlocks answer (foldr (:) [] choice)
  x <- fresh hint
  case mapM onlyReturns (joinedBlocks joined) of
    Just es | not (joinedNever joined) -> emit (Let x (decide (joinedType joined) (refilled choice es)))
    _ -> emit (Do (Just x) (Branch (refilled choice (joinedBlocks joined))) (joinedType joined))
  if joinedNever joined then endsHere else rebuild (Variable x) (joinedOutcome joined)
 where
  onlyReturns b = case b of
    [Do Nothing (Script.Form [Word "return", Argument e]) _] | not (mayThrow e) -> Just e
    _ -> Nothing

-- | The choice with these in place of its branches, in their order.
refilled :: Choice a -> [b] -> Choice b
refilled choice bs = case (choice, bs) of
  (ChooseIf c _ _, [a, b]) -> ChooseIf c a b
  (ChooseCase s c (MaybeArms _ x _), [a, b]) -> ChooseCase s c (MaybeArms a x b)
  (ChooseCase s c (EitherArms x _ y _), [a, b]) -> ChooseCase s c (EitherArms x a y b)
  (ChooseCase s c (ListArms _ x y _), [a, b]) -> ChooseCase s c (ListArms a x y b)
  _ -> error "refilled: a choice has two branches"

throwHere :: Maybe Type -> Expression -> Translate a
throwHere answer e = do
  e' <- hoist e
  emit (throwAction (fromMaybe UnitType (answer >>= encode)) e')
  endsHere

-- | A statement, and its answer.
simple :: String -> ScriptType -> Action -> Translate Value
simple hint t action = do
  x <- fresh hint
  emit (Do (Just x) action t)
  residual (Variable x) t

-- | What a function's first parameter is called.
parameterOf :: Value -> String
parameterOf (Closure _ v _) = occurrence v
parameterOf _ = ""

-- | The type of the script for the content of a cell and the like.
encoded :: String -> Value -> Translate ScriptType
encoded what value = case value of
  TypeValue t | Just s <- encodeContent t -> return s
              | otherwise -> refuse (if isFunctionLike t then CauseKept else CauseType) (what ++ " of the type " ++ showType t ++ ".")
  _ -> refuse CauseEvaluator (what ++ " of a type that isn't known.")
 where
  isFunctionLike t = isJust (ioResult t) || isJust (splitFunction t)

typeOf :: Value -> Maybe Type
typeOf value = case value of
  TypeValue t -> Just t
  _ -> Nothing

----------------------------------------------------------------------------------------------------------------------

emitKnown :: Maybe Type -> String -> String -> [Value] -> Translate Value
emitKnown answer hint name arguments = case (name, arguments) of
  ("returnIO", [_, x]) -> return x
  ("bindIO", [a, _, m, k]) -> do
    next <- force k
    x <- emitAction (typeOf a) (parameterOf next) m
    apply next x >>= emitAction answer hint
  ("thenIO", [a, _, m, k]) -> do
    _ <- emitAction (typeOf a) "x" m
    emitAction answer hint k
  ("call", [Named f came, TypeValue t]) -> emitCall hint f (reverse came) t
  ("getMaskingText", []) -> simple hint TextType (Script.Form [Word "getMaskingState"])
  ("yield", _) -> unitValue
  ("hFlush", _) -> unitValue
  ("hSetBuffering", [_, mode]) -> do
    m <- force mode
    case m of
      Constructed dc _ | occurrence dc /= "NoBuffering" -> unitValue
      _ -> refuse CauseBuffering "The buffering is set to NoBuffering, or to what isn't known."
  ("restore", [MaskingName r, a, m]) ->
    emitJoined hint (typeOf a) [masked False (emitAction (typeOf a) "" m)] (\bs -> Script.Form (Word "restore" : Binder r : map Body bs))
  ("catch", [TypeValue t, a, dictionary, m, h]) -> emitCatch hint t a dictionary m h
  ("catchException", [TypeValue t, a, dictionary, m, h]) -> emitCatch hint t a dictionary m h
  _ -> emitOther answer hint name arguments

-- | Actions that throw, release, evaluate or print, and the forms.
emitOther :: Maybe Type -> String -> String -> [Value] -> Translate Value
emitOther answer hint name arguments = case (name, arguments) of
  ("throwIO", [TypeValue t, _, dictionary, x]) -> do
    v <- force x
    case v of
      Residual e ExceptionType -> throwHere answer e
      Throwing e -> throwHere answer e
      _ -> do
        e <- reifyException (Exceptional t dictionary x)
        when (mayThrow e) $ strictHere CauseStrict "An exception that is thrown has a part that may throw or not end."
        throwHere answer e
  ("failIO", [_, s]) -> do
    note NoteUserError "An IOException of `fail` becomes an ErrorCall with the text `user error (..)`."
    thrown "IOException"
    e <- reify TextType s
    throwHere answer (Builtin "ErrorCall" [case e of Text t -> Text ("user error (" ++ t ++ ")"); _ -> Binary "++" (Text "user error (") (Binary "++" e (Text ")"))])
  ("ioError", [_, x]) -> do
    v <- force x
    e <- ioErrorOf v
    throwHere answer e
  ("bracket", [a, b, c, acquire, release, use]) -> emitBracket hint a b c acquire release use
  ("evaluate", [a, x]) -> emitEvaluate answer hint a x
  ("hPutStr", [h, s]) -> emitHandle "putStr" h s
  ("hPutStrLn", [h, s]) -> emitHandle "putStrLn" h s
  _ -> case formOf name of
    Just form -> emitForm form hint arguments
    Nothing -> refuse CauseLibrary ("`" ++ name ++ "` has no counterpart in a script.")
 where
  ioErrorOf v = case v of
    Residual e ExceptionType -> return e
    Chosen choice -> Decide ExceptionType <$> traverse (force >=> ioErrorOf) choice
    Throwing e -> return e
    Constructed dc _ -> reifyException (Exceptional (mkTyConTy (dataConTyCon dc)) CoercionValue v)
    _ -> refuse CauseExceptionKind "An IOException is thrown."

-- | What the action makes, with the mask around it that it stands in.
masked :: Bool -> Translate a -> Translate a
masked now act = do
  outer <- get worldMasked
  put worldMasked now
  answer <- act `finallyDo` put worldMasked outer
  put worldMasked outer
  return answer

-- | What the action makes is the text of another thread.
inThread :: Translate a -> Translate a
inThread act = do
  outer <- get worldThread
  modify worldThreads (+ 1)
  get worldThreads >>= put worldThread
  answer <- act `finallyDo` put worldThread outer
  put worldThread outer
  return answer

-- | A form that is being made: its row, and the arguments of its function.
data FormCall = FormCall Form [Value]

-- | A part of a form: pieces, or the block that gives its answer, with the names that it binds.
type FormPart = Either ([Name], Translate Value) [Piece]

-- | A form by its row in the table.
emitForm :: Form -> String -> [Value] -> Translate Value
emitForm form hint arguments = do
  when (word `elem` ["killThread", "throwTo", "timeout", "myThreadId"]) $ modify worldThrowers (Set.insert word)
  formParts <- mapM (formPart call) (zip [0 ..] (zip (formArguments form) arguments))
  let made bs = Script.Form (withoutUnusedName word (concatMap (filledWith bs) formParts))
      ofType k wrap = encoded (whatOf call) (argumentAt call k) >>= \t -> simple hint (wrap t) (made [])
  case formAnswer form of
    AnswerOfBlock k -> case [act | Left (_, act) <- formParts] of
      [act] -> emitJoined hint (typeOf (argumentAt call k)) [act] made
      _ -> refuse CauseEvaluator ("The form " ++ word ++ " has a row that isn't understood.")
    AnswerUnit -> simple hint UnitType (made [])
    AnswerBool -> simple hint BoolType (made [])
    AnswerThread -> simple hint ThreadType (made [])
    AnswerType k -> ofType k id
    AnswerMaybe k -> ofType k MaybeType
    AnswerCell k -> ofType k CellType
 where
  call = FormCall form arguments
  word = formFunction form
  filledWith bs formPart' = case formPart' of
    Right ps -> ps
    Left (names, _) -> map Binder names ++ map Body bs

argumentAt :: FormCall -> Int -> Value
argumentAt (FormCall _ arguments) k = case drop k arguments of
  a : _ -> a
  [] -> CoercionValue

whatOf :: FormCall -> String
whatOf (FormCall form _) = "`" ++ formFunction form ++ "`: a value"

-- | What stands for an argument: its number, its part of the row, and the argument.
formPart :: FormCall -> (Int, (Part, Value)) -> Translate FormPart
formPart call@(FormCall form _) (index, (part, a)) = case part of
  Passed -> return (Right [])
  Marked -> (\t -> Right [At t]) <$> encoded (whatOf call) a
  CellOf k -> encoded (whatOf call) (argumentAt call k) >>= \t -> plain <$> expressionHere (CellType t) a
  ValueOf k -> encoded (whatOf call) (argumentAt call k) >>= \t -> plain <$> expressionWhereUsed ("What `" ++ formFunction form ++ "` keeps") t a
  NumberPart -> plain <$> expressionHere IntType a
  ThreadPart -> plain <$> expressionHere ThreadType a
  TextPart -> plain <$> printed a
  ExceptionPart t d -> case argumentAt call t of
    TypeValue u -> plain <$> expressionWhereUsed "An exception that is thrown" ExceptionType (Exceptional u (argumentAt call d) a)
    _ -> refuse CauseEvaluator "An exception of a type that isn't known."
  BlockPart k -> formBlock call index k [] (return a)
  MaskingPart k -> do
    f <- force a
    r <- fresh (if parameterOf f `elem` ["restore", ""] then (if formAnswer form == AnswerThread then "unmask" else "r") else parameterOf f)
    formBlock call index k [r] (apply f (MaskingName r))
  NamedPart x k -> do
    t <- encoded (whatOf call) (argumentAt call x)
    f <- force a
    name <- fresh (parameterOf f)
    content <- residual (Variable name) t
    formBlock call index (Just k) [name] (apply f content)
 where
  plain e = Right [Argument e]

-- | A block of a form: the number of its argument, the type of its answer, the names that it binds, its action.
formBlock :: FormCall -> Int -> Maybe Int -> [Name] -> Translate Value -> Translate FormPart
formBlock call@(FormCall form _) index k names act
  | formAnswer form == maybe AnswerUnit AnswerOfBlock k, isJust k = return (Left (names, block))
  | otherwise = do
      joined <- joinBlocksAt (answer >>= encodeContent) [block]
      return (Right (map Binder names ++ map Body (joinedBlocks joined)))
 where
  answer = k >>= typeOf . argumentAt call
  block = around (act >>= emitAction answer "")
  around
    | formAnswer form == AnswerThread = inThread
    | formFunction form `elem` ["mask", "mask_", "uninterruptibleMask", "uninterruptibleMask_"] = masked True
    | formFunction form `elem` ["finally", "onException"], index == 3 = masked True
    | otherwise = id

-- | A mask whose name nobody uses has none.
withoutUnusedName :: String -> [Piece] -> [Piece]
withoutUnusedName word pieces = case pieces of
  [Binder r, Body b] | word `elem` ["mask", "uninterruptibleMask"], r `notElem` freeOfBlock b -> [Word (word ++ "_"), Body b]
  _ -> Word word : pieces

emitCatch :: String -> Type -> Value -> Value -> Value -> Value -> Translate Value
emitCatch hint t a dictionary m h = do
  handler <- force h
  e <- fresh (case parameterOf handler of "" -> "e"; p -> p)
  let exception = Residual (Variable e) ExceptionType
      again = Doing "throwIO" [TypeValue t, a, CoercionValue, exception] nowhere
      handling
        | typeName t == "SomeException" = do
            here <- place
            modify worldCatchAll (here :)
            apply handler exception
        | otherwise = matchException t dictionary exception >>= onMatch (apply handler) again
  emitJoined hint (typeOf a) [emitAction (typeOf a) "" m, masked True (handling >>= emitAction (typeOf a) "")] (caught e)
 where
  caught e bs = Script.Form (Word "catch" : concat [[Body inner, Binder e, Body handled] | [inner, handled] <- [bs]])

-- | What is done with what is in a Maybe, and what else.
onMatch :: (Value -> Translate Value) -> Value -> Value -> Translate Value
onMatch yes no value0 = do
  value <- force value0
  case value of
    Chosen choice -> overChoice (onMatch yes no) choice
    Constructed dc [x] | occurrence dc == "Just" -> yes x
    Constructed _ _ -> return no
    Throwing e -> return (Throwing e)
    _ -> refuse CauseEvaluator "An exception that isn't known."

emitBracket :: String -> Value -> Value -> Value -> Value -> Value -> Value -> Translate Value
emitBracket hint a b c acquire release use = do
  acquired <- joinBlocks (typeOf a) [masked True (emitAction (typeOf a) "" acquire)]
  releasing <- force release
  using <- force use
  x <- fresh (case parameterOf using of "" -> parameterOf releasing; p -> p)
  resource <- rebuild (Variable x) (joinedOutcome acquired)
  released <- joinBlocks (typeOf b) [masked True (apply releasing resource >>= emitAction (typeOf b) "")]
  emitJoined hint (typeOf c) [apply using resource >>= emitAction (typeOf c) ""] $ \bs ->
    Script.Form ([Word "bracket"] ++ map Body (joinedBlocks acquired) ++ [Binder x] ++ map Body (joinedBlocks released) ++ map Body bs)

-- | Evaluation as far as the outermost constructor, which is named so that it happens once.
emitEvaluate :: Maybe Type -> String -> Value -> Value -> Translate Value
emitEvaluate answer hint a x = do
  v <- force x
  case v of
    Throwing e -> throwHere answer e
    Residual e t | mayThrow e -> named e t
    Chosen choice -> case typeOf a >>= encode of
      Just t | not (any isConstructed choice) -> do
        e <- reify t v
        if mayThrow e then named e t else return v
      _ | noThrow choice -> return v
        | otherwise -> emitAction answer hint (Chosen (fmap (\w -> Doing "evaluate" [a, w] nowhere) choice))
    _ -> return v
 where
  named e t = do
    e' <- hoist e
    y <- fresh hint
    emit (Do (Just y) (returnAction e') t)
    residual (Variable y) t
  isConstructed v = case v of
    Constructed _ (_ : _) -> True
    _ -> False
  noThrow choice = all quiet choice && not (scrutineeThrows choice)
  quiet v = case v of
    Throwing _ -> False
    Residual e _ -> not (mayThrow e)
    Thunk _ -> False
    Chosen _ -> False
    _ -> True
  scrutineeThrows choice = case choice of
    ChooseIf e _ _ -> mayThrow e
    ChooseCase _ e _ -> mayThrow e
    Evaluated {} -> True

emitHandle :: String -> Value -> Value -> Translate Value
emitHandle word h s = do
  handle <- force h
  e <- printed s
  case handle of
    Primitive "stdout" _ _ -> simple "x" UnitType (Script.Form [Word word, Argument e])
    Primitive "stderr" _ _
      | word == "putStrLn" -> simple "x" UnitType (Script.Form [Word "hPutStrLn", Word "stderr", Argument e])
    _ -> refuse CauseLibrary "A text goes to another handle than stdout, or without a line feed to stderr."

-- | A text that is printed. What may throw in it must come before all that could be printed.
printed :: Value -> Translate Expression
printed s = do
  here <- place
  thread <- get worldThread
  isMasked <- get worldMasked
  modify worldPrints ((thread, isMasked, here) :)
  e <- reify TextType s
  when (mayThrow e && not (throwsFirst e)) $ strictHere CausePrintedText "A text that is printed has a part that may throw or not end, behind others."
  hoist e

-- | Whether all that may throw in a text does so before its first character is known.
throwsFirst :: Expression -> Bool
throwsFirst e
  | not (mayThrow e) = True
  | otherwise = case e of
      Builtin "show" [_] -> True
      Raise _ _ -> True
      Binary "++" a b -> mayThrow a && throwsFirst a && not (mayThrow b)
      Decide _ choice -> all throwsFirst choice
      _ -> False

----------------------------------------------------------------------------------------------------------------------

-- | A call of an action function: a list whose end is known is unrolled, and a function that gets a masking name is
-- written out; else it is a call of a definition.
emitCall :: String -> Function -> [Value] -> Type -> Translate Value
emitCall hint f arguments t = do
  depths <- get worldDepth
  let depth = fromMaybe 0 (lookupVarEnv depths (functionId f))
  unrolls <- if functionRecursive f && depth < 60 then anyM (hasKnownSpine (depth > 0)) arguments else return False
  masks <- if functionRecursive f then return False else getsMaskingName f arguments
  if unrolls || masks
    then do
      put worldDepth (extendVarEnv depths (functionId f) (depth + 1))
      answer <- (evaluateBody f arguments >>= emitAction (ioResult t) hint) `finallyDo` put worldDepth depths
      put worldDepth depths
      return answer
    else do
      here <- place
      (name, holes, outcome) <- specialise f arguments t True
      put worldPlace here
      holes' <- mapM hoist holes
      x <- fresh (if hint `elem` ["", "x"] || take 2 hint == "ds" then "r" else hint)
      let statement = emit . Do (Just x) (CallAction name holes')
      case outcome of
        AnswersNever -> statement UnitType >> endsHere
        AnswersType s -> statement s >> residual (Variable x) s
        AnswersTemplates s _ -> statement s >> rebuild (Variable x) outcome
 where
  anyM p = foldM (\found a -> if found then return True else p a) False

-- | Whether the value is a list of at most 60 elements, of which the number is known.
hasKnownSpine :: Bool -> Value -> Translate Bool
hasKnownSpine inside a = case a of
  TypeValue _ -> return False
  _ -> fromRight False <$> attempt (trial (spine (if inside then 60 else 61 :: Int) a))
 where
  spine 0 _ = return False
  spine n value = do
    v <- force value
    case v of
      KnownText s -> return (length s < n && (n <= 60 || not (null s)))
      Constructed dc []
        | occurrence dc == "[]" -> return (n <= 60)
      Constructed dc [_, rest]
        | occurrence dc == ":" -> spine (n - 1) rest
      _ -> return False

getsMaskingName :: Function -> [Value] -> Translate Bool
getsMaskingName f arguments = do
  shape <- newShape (\h _ -> return h)
  mapM_ (uncurry (shapeOf shape "")) (zip (argumentTypes (substituted (functionEnvironment f) (idType (functionId f))) arguments) arguments)
  holdsMaskingName shape
