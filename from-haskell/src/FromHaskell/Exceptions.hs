-- |
-- Module      : FromHaskell.Exceptions
-- Description : Exceptions
--
-- What an exception of Haskell is in a script, and which exceptions a handler of a type is for. A script has
-- ErrorCall with a text, and a few exceptions without; an exception type of the program is an ErrorCall with the text
-- that its @show@ gives.
module FromHaskell.Exceptions
  ( reifyException
  , matchException
  , textOfException
  , settleHandlers
  , thrown
  ) where

import Control.Monad (forM_, unless)
import qualified Data.Set as Set

import FromHaskell.Encode
import FromHaskell.Force
import FromHaskell.Ghc
import FromHaskell.Method (showBy)
import FromHaskell.Monad
import FromHaskell.Reify (reify)
import FromHaskell.Report
import FromHaskell.Script
import FromHaskell.Value

-- | A value of SomeException as an expression.
reifyException :: Value -> Translate Expression
reifyException value0 = do
  value <- force value0
  case value of
    Exceptional t dictionary x -> exceptionOfType t dictionary x
    Chosen choice -> Decide ExceptionType <$> traverse reifyException choice
    _ -> reify ExceptionType value

exceptionOfType :: Type -> Value -> Value -> Translate Expression
exceptionOfType t dictionary x = do
  whole <- force x
  case whole of
    -- One of base's that no script throws: what is looked at here was never it.
    Shown dc _ _ _ | typeName t `elem` ["AsyncException", "ArithException"], occurrence dc `notElem` inScripts -> return (errorCall (Text (occurrence dc)))
    _ -> exceptionKnown t dictionary x (known whole)
 where
  known v = case v of
    Shown dc fields _ _ -> Constructed dc fields
    _ -> v

-- | The exceptions without a text that the language names.
inScripts :: [String]
inScripts = ["ThreadKilled", "UserInterrupt", "DivideByZero", "Overflow"]

-- | An exception of this type, with its dictionary, and what is known of it.
exceptionKnown :: Type -> Value -> Value -> Value -> Translate Expression
exceptionKnown t dictionary x inner =
  case (name, inner) of
    (_, Chosen choice) -> Decide ExceptionType <$> traverse (exceptionOfType t dictionary) choice
    (_, Throwing e) -> return (Raise ExceptionType e)
    ("SomeException", _) -> reify ExceptionType inner
    ("ErrorCall", Constructed _ (s : _)) -> errorCall <$> reify TextType s
    ("ErrorCall", Residual e _) -> return (errorCall e)
    ("BlockedIndefinitelyOnMVar", _) -> refuse CauseExceptionKind "BlockedIndefinitelyOnMVar is thrown."
    ("IOException", Constructed _ [_, kind, _, description, _, _]) -> ioException kind description
    ("IOException", _) -> refuse CauseExceptionKind "An IOException is thrown."
    ("ExitCode", _) -> refuse CauseExceptionKind "An exit code is thrown."
    _
      | name `elem` ["AsyncException", "ArithException"] -> ofBase inner
      | Residual e ExceptionType <- inner -> return e
      | otherwise -> ownException name dictionary x
 where
  name = typeName t
  ofBase v = case v of
    Constructed dc _
      | occurrence dc `elem` inScripts -> return (Constant (occurrence dc))
      | otherwise -> refuse CauseExceptionKind ("The exception " ++ occurrence dc ++ " is thrown.")
    Residual e _
      | name == "ArithException" -> return (Decide ExceptionType (ChooseIf (Binary "==" e (Number 0)) (Constant "Overflow") (Constant "DivideByZero")))
      | otherwise -> return (Decide ExceptionType (ChooseIf (Binary "==" e (Number 2)) (Constant "ThreadKilled") (Constant "UserInterrupt")))
    _ -> refuse CauseEvaluator "An exception that isn't known."

errorCall :: Expression -> Expression
errorCall e = Builtin "ErrorCall" [e]

ioException :: Value -> Value -> Translate Expression
ioException kind description = do
  k <- force kind
  case k of
    Constructed dc _ | occurrence dc == "UserError" -> do
      note NoteUserError "An IOException of userError becomes an ErrorCall with the text `user error (..)`."
      thrown "IOException"
      errorCall . userError' <$> reify TextType description
    _ -> refuse CauseExceptionKind "An IOException is thrown."
 where
  userError' e = case e of
    Text s -> Text ("user error (" ++ s ++ ")")
    _ -> Binary "++" (Text "user error (") (Binary "++" e (Text ")"))

ownException :: String -> Value -> Value -> Translate Expression
ownException name dictionary x = do
  note NoteOwnException ("The exception type " ++ name ++ " becomes an ErrorCall with its text; handlers of ErrorCall see it too.")
  thrown name
  shown <- showBy dictionary x
  errorCall <$> reify TextType shown

-- | An exception of this type became an ErrorCall.
thrown :: String -> Translate ()
thrown name = modify worldThrown (Set.insert name)

-- | Looks at handlers once all is translated: one that was left out is refused where its exception is thrown after all,
-- and one of ErrorCall is noted where exceptions of other types are ErrorCalls.
settleHandlers :: Translate ()
settleHandlers = do
  leftOut <- get worldLeftOut
  handlers <- get worldErrorHandlers
  types <- get worldThrown
  forM_ (reverse leftOut) $ \(here, name) ->
    if name `Set.member` types
      then refuseAt here CauseExceptionKind ("A handler of the exception type " ++ name ++ ", which the program throws.")
      else noteAt here NoteHandler ("An exception of the type " ++ name ++ " never comes in a script; this handler is left out.")
  unless (Set.null types) $
    forM_ (reverse handlers) $ \here -> noteAt here NoteOwnException "This handler of ErrorCall sees exceptions of other types too, which are ErrorCalls here."

-- | The text of an exception that is shown.
textOfException :: Value -> Translate Value
textOfException value0 = do
  value <- force value0
  case value of
    Chosen choice -> overChoice textOfException choice
    Throwing e -> return (Throwing e)
    Exceptional t dictionary x
      | typeName t `elem` ["ErrorCall", "AsyncException", "ArithException"] -> do
          e <- reifyException value
          return $ case e of
            Builtin "ErrorCall" [s] -> shownText s
            _ -> Residual (Builtin "show" [e]) TextType
      | otherwise -> showBy dictionary x
    _ -> do
      e <- reify ExceptionType value
      here <- place
      modify worldStackShown (here :)
      return (Residual (Builtin "show" [e]) TextType)
 where
  shownText s = case s of
    Text known -> KnownText known
    _ -> Residual s TextType

-- | What @fromException@ gives at this type: dictionary of the type, exception.
matchException :: Type -> Value -> Value -> Translate Value
matchException t dictionary exception = do
  value <- force exception
  case value of
    Exceptional u _ x -> ofKnownType u x value
    Constructed _ [TypeValue u, _, x] -> ofKnownType u x value
    Chosen choice -> overChoice (matchException t dictionary) choice
    Throwing e -> return (Throwing e)
    Shown _ _ e _ -> ofUnknown e (Residual e ExceptionType)
    Residual e _ -> ofUnknown e value
    _ -> refuse CauseEvaluator "An exception that isn't known."
 where
  ofKnownType u x value
    | eqType u t = justValue x
    | typeName t == "SomeException" = justValue value
    | typeName t == "SomeAsyncException", typeName u == "AsyncException" = asynchronous t value
    | otherwise = nothingValue
  ofUnknown = matchUnknown t dictionary

-- | A value of SomeAsyncException with this exception in it, if the type is that.
asynchronous :: Type -> Value -> Translate Value
asynchronous t value = case constructorOf t "SomeAsyncException" of
  Just dc -> justValue (Constructed dc [TypeValue t, Primitive "unknownException" 1 [], value])
  Nothing -> nothingValue

-- | The same at an exception that only a run knows: a test of the script says whether it is of the type.
matchUnknown :: Type -> Value -> Expression -> Value -> Translate Value
matchUnknown t dictionary e value = case typeName t of
  "SomeException" -> justValue value
  "ErrorCall" -> do
    here <- place
    modify worldErrorHandlers (here :)
    tested t "ErrorCallWithLocation" [Residual (Builtin "show" [e]) TextType, KnownText ""] (isErrorCall e)
  "AsyncException" -> oneOf t e ["ThreadKilled", "UserInterrupt"]
  "ArithException" -> oneOf t e ["DivideByZero", "Overflow"]
  "BlockedIndefinitelyOnMVar" -> tested t "BlockedIndefinitelyOnMVar" [] (isBlocked e)
  "SomeAsyncException" -> do
    yes <- asynchronous t value
    Chosen . ChooseIf (isAsync e) yes <$> nothingValue
  name
    | name `elem` neverComing -> do
        here <- place
        modify worldLeftOut ((here, name) :)
        nothingValue
    | null constructors || any ((> 0) . dataConSourceArity) constructors ->
        refuse CauseExceptionFields ("A handler of the exception type " ++ name ++ ", whose values have fields.")
    | otherwise -> ownChain dictionary e constructors
 where
  constructors = maybe [] (tyConDataCons . fst) (splitTyConApp_maybe t)

-- | The exception of this constructor where the test holds.
tested :: Type -> String -> [Value] -> Expression -> Translate Value
tested t name fields test = case constructorOf t name of
  Nothing -> nothingValue
  Just dc -> do
    yes <- justValue (Constructed dc fields)
    Chosen . ChooseIf test yes <$> nothingValue

-- | One of the exceptions that the language names.
oneOf :: Type -> Expression -> [String] -> Translate Value
oneOf t e names = case names of
  [] -> nothingValue
  name : rest -> case constructorOf t name of
    Nothing -> oneOf t e rest
    Just dc -> do
      yes <- justValue (Constructed dc [])
      Chosen . ChooseIf (Binary "==" e (Constant name)) yes <$> oneOf t e rest

-- | One of the program's exceptions without fields, by its text.
ownChain :: Value -> Expression -> [DataCon] -> Translate Value
ownChain dictionary e constructors = case constructors of
  [] -> nothingValue
  dc : rest -> do
    shown <- showBy dictionary (Constructed dc []) >>= reify TextType
    yes <- justValue (Constructed dc [])
    Chosen . ChooseIf (Binary "==" e (errorCall shown)) yes <$> ownChain dictionary e rest

-- | Exceptions of base that nothing in a script throws.
neverComing :: [String]
neverComing = words "IOException PatternMatchFail BlockedIndefinitelyOnSTM AssertionFailed NestedAtomically Deadlock ExitCode ArrayException TypeError NonTermination AllocationLimitExceeded RecSelError RecConError RecUpdError NoMethodError"

constructorOf :: Type -> String -> Maybe DataCon
constructorOf t name = case splitTyConApp_maybe t of
  Just (tyCon, _) | dc : _ <- [c | c <- tyConDataCons tyCon, occurrence c == name] -> Just dc
  _ -> Nothing

isErrorCall, isBlocked, isAsync :: Expression -> Expression
isErrorCall e = Binary "==" e (errorCall (Builtin "show" [e]))
isBlocked e = Binary "&&" (Binary "==" (Builtin "show" [e]) (Text "thread blocked indefinitely in an MVar operation")) (Binary "/=" e (errorCall (Builtin "show" [e])))
isAsync e = Binary "||" (Binary "||" (is "ThreadKilled") (is "UserInterrupt")) isTimeout
 where
  is name = Binary "==" e (Constant name)
  isTimeout = Binary "&&" (Binary "==" (Builtin "show" [e]) (Text "<<timeout>>")) (Binary "/=" e (errorCall (Builtin "show" [e])))
