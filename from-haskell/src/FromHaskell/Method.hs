-- |
-- Module      : FromHaskell.Method
-- Description : Methods of type classes
--
-- A method at a dictionary of the program is its field. At an instance of a library it is what 'FromHaskell.Known' or
-- the prelude says, and else what the interface of the library's module says.
module FromHaskell.Method
  ( applyMethod
  , dictionaryFields
  , showBy
  ) where

import Control.Monad ((>=>))
import Data.List (elemIndex, foldl', isPrefixOf)
import qualified Data.Map.Strict as Map
import Data.Maybe (fromMaybe)

import FromHaskell.Encode
import {-# SOURCE #-} FromHaskell.Evaluate (applyAll, applyPrelude, evaluate)
import FromHaskell.Force
import FromHaskell.Ghc
import FromHaskell.Known
import FromHaskell.Monad
import FromHaskell.Report
import FromHaskell.Value

-- | A method's selector with the arguments that came, the last first: the class's types, the dictionary, and the others.
applyMethod :: Id -> [Value] -> Translate Value
applyMethod selector came = case isClassOpId_maybe selector of
  Nothing -> refuse CauseEvaluator ("`" ++ occurrence selector ++ "` is no method.")
  Just classOf
    | length came <= types -> return (Method selector came)
    | otherwise -> case splitAt types (reverse came) of
        (typeArguments, dictionary : rest) -> do
          d <- force dictionary
          methodAt (Call' selector classOf typeArguments) d rest
        _ -> return (Method selector came)
   where
    types = length (classTyVars classOf)

-- | A method, its class, and the class's type arguments.
data Call' = Call' Id Class [Value]

methodAt :: Call' -> Value -> [Value] -> Translate Value
methodAt call@(Call' selector classOf _) dictionary rest = case dictionary of
  Chosen choice -> overChoice (force >=> \d -> methodAt call d rest) choice
  Constructed dc fields
    | isClassTyCon (dataConTyCon dc), Just method <- nth (methodIndex selector classOf) fields -> force method >>= (`applyAll` rest)
  Primitive "unknownException" _ _ -> ofUnknownException (occurrence selector) rest
  Dictionary d came -> ofLibrary call d (reverse came) rest
  _ | isNewTyCon (classTyCon classOf) -> applyAll dictionary rest
  _ -> refuse CauseEvaluator ("The instance that `" ++ occurrence selector ++ "` belongs to isn't known.")

methodIndex :: Id -> Class -> Int
methodIndex selector classOf = fromMaybe 0 (elemIndex (getUnique selector) (map getUnique (classAllSelIds classOf)))

nth :: Int -> [a] -> Maybe a
nth n xs = case drop n xs of
  x : _ -> Just x
  [] -> Nothing

-- | A method at an instance of a library, with the instance's arguments and the method's.
ofLibrary :: Call' -> Id -> [Value] -> [Value] -> Translate Value
ofLibrary call@(Call' selector classOf typeArguments) d instanceArguments rest = do
  prelude <- get worldPrelude
  let instanceOf = instanceName (occurrence d)
      method = occurrence selector
      primitive name arity = applyAll (Primitive name arity []) rest
      charInstance = case instanceArguments of
        [TypeValue t, _] -> isCharacter t
        _ -> False
      inPrelude name = name `Map.member` prelude
  case methodPrimitive method instanceOf of
    Just (name, arity) -> primitive name arity
    Nothing
      | isWidth instanceOf -> refuse CauseNumber ("`" ++ method ++ "` of the instance " ++ instanceOf ++ ".")
      | method == "toException", "Exception" `isPrefixOf` instanceOf -> toException typeArguments
      | method == "fromException", t : _ <- typeArguments -> applyAll (Primitive "$dmfromException" 1 [Dictionary d (reverse instanceArguments), t]) rest
      | method == "displayException", x : more <- rest -> showBy (Dictionary d (reverse instanceArguments)) x >>= (`applyAll` more)
      | method `elem` ["==", "/="], instanceOf == "EqList", charInstance -> primitive ("equal" ++ method) 2
      | method `elem` ["<", "<=", ">", ">="], instanceOf == "OrdList", charInstance -> primitive ("order" ++ method) 2
      | method == "show", instanceOf == "ShowList", charInstance -> primitive "showText" 1
      | method == "showList", instanceOf == "ShowChar" -> primitive "showTextBefore" 2
      | inPrelude (preludeMethod method instanceOf) -> applyPrelude (preludeMethod method instanceOf) (instanceArguments ++ rest)
      | method == "showList" -> applyPrelude "showListAny" (typeArguments ++ [dictionary] ++ rest)
      | method == "showsPrec", instanceOf `elem` ["ShowThreadId", "ShowSomeException"] -> applyPrelude "defaultShowsPrec" (typeArguments ++ [dictionary] ++ rest)
      | otherwise -> fromInterface call d instanceArguments rest
 where
  dictionary = Dictionary d (reverse instanceArguments)
  toException types
    | instanceName (occurrence d) == "ExceptionSomeException" = applyAll (Primitive "same" 1 []) rest
    | t : _ <- types = applyAll (Primitive "$dmtoException" 1 [dictionary, t]) rest
    | otherwise = refuse CauseEvaluator ("`toException` of " ++ occurrence (classTyCon classOf) ++ ".")
  isWidth name = any (`elem` [name]) [c ++ t | c <- words "Num Show Eq Ord Enum Integral Real Bounded Bits", t <- words "Word Word8 Word16 Word32 Word64 Int8 Int16 Int32 Double Float Natural"]

-- | A method as the interface of the instance's module has it.
fromInterface :: Call' -> Id -> [Value] -> [Value] -> Translate Value
fromInterface call@(Call' selector classOf _) d instanceArguments rest = do
  fields <- dictionaryFields (Dictionary d (reverse instanceArguments))
  case fields of
    Just (method : _) | isNewTyCon (classTyCon classOf) -> force method >>= (`applyAll` rest)
    Just all' | Just method <- nth (methodIndex selector classOf) all' -> force method >>= (`applyAll` rest)
    _ -> case maybeUnfoldingTemplate (unfoldingOf d) of
      Just e -> do
        dictionary <- evaluate emptyEnvironment e >>= (`applyAll` instanceArguments) >>= force
        if isNewTyCon (classTyCon classOf) then applyAll dictionary rest else methodAt call dictionary rest
      Nothing -> refuse CauseLibrary ("`" ++ occurrence selector ++ "` of the instance " ++ instanceName (occurrence d) ++ " has no counterpart in a script.")

-- | The fields of an instance of a library, where its interface has them.
dictionaryFields :: Value -> Translate (Maybe [Value])
dictionaryFields value = case value of
  Dictionary d came
    | DFunUnfolding binders _ arguments <- unfoldingOf d, length came >= length binders -> do
        let environment = foldl' (\e (b, a) -> bind e b a) emptyEnvironment (zip binders (reverse came))
        Just <$> mapM (thunk . evaluate environment) (filter (not . isTypeArg) arguments)
  _ -> return Nothing

-- | A method of the class Exception, or Show, at an exception of which only a run knows the type.
ofUnknownException :: String -> [Value] -> Translate Value
ofUnknownException method rest = case (method, rest) of
  ("show", _) -> applyAll (Primitive "showException" 1 []) rest
  ("displayException", _) -> applyAll (Primitive "showException" 1 []) rest
  ("toException", _) -> applyAll (Primitive "same" 1 []) rest
  ("$p2Exception", []) -> return (Primitive "unknownException" 1 [])
  ("showsPrec", [_, x, after]) -> do
    shown <- applyAll (Primitive "showException" 1 []) [x]
    applyPrelude "showString" [shown, after]
  _ -> refuse CauseEvaluator ("`" ++ method ++ "` of an exception whose type isn't known.")

-- | The text of an exception, by the dictionary of its class Exception.
showBy :: Value -> Value -> Translate Value
showBy dictionary x = do
  d <- force dictionary
  case d of
    Constructed dc fields | isClassTyCon (dataConTyCon dc), Just shows' <- nth 1 fields -> force shows' >>= showOf
    _ -> do
      fields <- dictionaryFields d
      case fields >>= nth 1 of
        Just shows' -> force shows' >>= showOf
        Nothing -> refuse CauseEvaluator "The text of an exception of this type."
 where
  showOf shows' = case classOf shows' of
    Just c | selector : _ <- [i | i <- classAllSelIds c, occurrence i == "show"] -> applyMethod selector [shows', TypeValue (mkTyConTy (classTyCon c))] >>= (`applyAll` [x])
    _ -> refuse CauseEvaluator "The text of an exception of this type."
  classOf shows' = case shows' of
    Constructed dc _ -> tyConClass_maybe (dataConTyCon dc)
    Dictionary d _
      | DFunUnfolding _ dc _ <- unfoldingOf d -> tyConClass_maybe (dataConTyCon dc)
      | otherwise -> fst <$> instanceClass d
    _ -> Nothing
  instanceClass d = case [(c, as) | Just (t, as) <- [splitTyConApp_maybe (snd (splitForAllTys (idType d)))], Just c <- [tyConClass_maybe t]] of
    found : _ -> Just found
    [] -> Nothing
