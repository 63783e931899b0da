-- |
-- Module      : FromHaskell.Encode
-- Description : Types of Haskell as types of the script
--
-- Which type of the script the values of a Haskell type have. An enumeration is an Int, by position. Of another data
-- type each constructor is the pair of its fields; one constructor without fields beside others makes it a Maybe, and
-- several constructors are nested Eithers in their order.
module FromHaskell.Encode
  ( encode
  , encodeContent
  , isEnumeration
  , isCharacter
  , isIO
  , ioResult
  , resultWhenApplied
  , argumentTypes
  , isDictionary
  , typeName
  , Alternatives (..)
  , alternatives
  ) where

import Data.List (partition)
import Data.Maybe (isJust)

import FromHaskell.Ghc
import FromHaskell.Script
import FromHaskell.Value

-- | How the constructors of a data type are told apart.
data Alternatives
  = OnlyOne DataCon
  | OneWithout DataCon [DataCon]   -- ^ a Maybe: this one has no fields, these are what is inside
  | Several [DataCon]              -- ^ nested Eithers

-- | The shape of these constructors, of which there is at least one.
alternatives :: [DataCon] -> Alternatives
alternatives constructors = case (constructors, partition ((== 0) . dataConSourceArity) constructors) of
  ([one], _) -> OnlyOne one
  (_, ([bare], others@(_ : _))) -> OneWithout bare others
  _ -> Several constructors

-- | The type of the script for this type, if there is one.
encode :: Type -> Maybe ScriptType
encode = encodeWithin False 12 []

-- | The type of the script for what a cell keeps, if there is one. Functions and actions are kept by tags.
encodeContent :: Type -> Maybe ScriptType
encodeContent = encodeWithin True 12 []

encodeWithin :: Bool -> Int -> [TyCon] -> Type -> Maybe ScriptType
encodeWithin _ 0 _ _ = Nothing
encodeWithin isContent _ _ whole
  | isContent, isJust (splitFunction whole) = keptType whole
encodeWithin isContent depth seen whole = do
  (constructor, arguments0) <- splitTyConApp_maybe whole
  let name = occurrence constructor
      arguments = filter (not . isRuntimeRepresentation) arguments0
      inside = encodeWithin isContent (depth - 1) seen
      below = encodeWithin isContent (depth - 1) (constructor : seen)
      content = encodeWithin True (depth - 1) seen
      basic
        | name `elem` ["Int", "Integer", "Int#", "Int64"] = Just IntType
        | name == "Bool" = Just BoolType
        | name `elem` ["Char", "Char#", "ErrorCall"] = Just TextType
        | name == "ThreadId" = Just ThreadType
        | name == "SomeException" = Just ExceptionType
        | name == "Any" = Just UnitType
        | otherwise = Nothing
  case (name, arguments) of
    _ | isJust basic -> basic
    ("MVar", [a]) -> CellType <$> content a
    ("IORef", [a]) -> CellType <$> content a
    ("Maybe", [a]) -> MaybeType <$> inside a
    ("Either", [a, b]) -> EitherType <$> inside a <*> inside b
    ("[]", [a])
      | isCharacter a -> Just TextType
      | otherwise -> ListType <$> inside a
    _ | isIO constructor -> if isContent then keptType whole else Nothing
    _ | Just inner <- unwrapNewtypeOnce constructor arguments0 ->
          if constructor `elem` seen then Nothing else below inner
    _ | isData constructor name && (isTupleTyCon constructor || constructor `notElem` seen) ->
          encodeData below constructor arguments
    _ -> Nothing

-- | Functions or actions of a type without variables.
keptType :: Type -> Maybe ScriptType
keptType whole
  | isClosed whole = Just (KeptType (showType (expandTypeSynonyms whole)))
  | otherwise = Nothing

isData :: TyCon -> String -> Bool
isData constructor name =
  isAlgTyCon constructor
    && not (isNewTyCon constructor)
    && not (isClassTyCon constructor)
    && name `notElem` words "Double Float TVar STM Handle Word Word8 Word16 Word32 Word64 Int8 Int16 Int32 Natural Ratio Weak Ptr ForeignPtr"

encodeData :: (Type -> Maybe ScriptType) -> TyCon -> [Type] -> Maybe ScriptType
encodeData below constructor arguments
  | null constructors = Nothing
  | isEnumeration constructor = Just IntType
  | otherwise = case alternatives constructors of
      OnlyOne one -> fieldsOf one
      OneWithout _ others -> MaybeType . foldr1 EitherType <$> mapM fieldsOf others
      Several many -> foldr1 EitherType <$> mapM fieldsOf many
 where
  constructors = tyConDataCons constructor
  fieldsOf c = dataConFieldTypes c arguments >>= fmap pairType . mapM below

-- | Whether it has several constructors and none of them fields.
isEnumeration :: TyCon -> Bool
isEnumeration constructor = length constructors > 1 && all ((== 0) . dataConSourceArity) constructors
 where
  constructors = tyConDataCons constructor

-- | Whether this is Char.
isCharacter :: Type -> Bool
isCharacter t = typeName t == "Char"

-- | The name of the type's constructor.
typeName :: Type -> String
typeName t = maybe "?" (occurrence . fst) (splitTyConApp_maybe t)

-- | Whether this is the type of actions.
isIO :: TyCon -> Bool
isIO constructor = occurrence constructor == "IO" && moduleOf constructor == "GHC.Types"

-- | What an action of this type answers. Newtypes of actions are actions.
ioResult :: Type -> Maybe Type
ioResult t = do
  (constructor, arguments) <- splitTyConApp_maybe t
  case arguments of
    [a] | isIO constructor -> Just a
    _ -> unwrapNewtypeOnce constructor arguments >>= ioResult

-- | Whether this is the type of a class's dictionaries.
isDictionary :: Type -> Bool
isDictionary t = maybe False (isClassTyCon . fst) (splitTyConApp_maybe t)

unwrapped :: Type -> Maybe Type
unwrapped t = do
  (constructor, arguments) <- splitTyConApp_maybe t
  if isIO constructor then Nothing else unwrapNewtypeOnce constructor arguments

-- | The type of a function applied to these arguments, where it needs no more.
resultWhenApplied :: Type -> [Value] -> Maybe Type
resultWhenApplied t arguments
  | Just (variable, body) <- splitForAllTy_maybe t = case arguments of
      TypeValue a : rest -> resultWhenApplied (substTyWithUnchecked [variable] [a] body) rest
      _ : rest -> resultWhenApplied body rest
      [] -> Nothing
  | Just (_, result) <- splitFunction t = case arguments of
      _ : rest -> resultWhenApplied result rest
      [] -> Nothing
  | Just inner <- unwrapped t, isFunction inner = resultWhenApplied inner arguments
  | otherwise = Just t
 where
  isFunction u = isJust (splitForAllTy_maybe u) || isJust (splitFunction u) || maybe False isFunction (unwrapped u)

-- | The type of each argument, where the function's type says it.
argumentTypes :: Type -> [Value] -> [Maybe Type]
argumentTypes _ [] = []
argumentTypes t (a : rest)
  | Just (variable, body) <- splitForAllTy_maybe t =
      Nothing : argumentTypes (case a of TypeValue u -> substTyWithUnchecked [variable] [u] body; _ -> body) rest
  | Just (argument, result) <- splitFunction t = Just argument : argumentTypes result rest
  | Just inner <- unwrapped t = argumentTypes inner (a : rest)
  | otherwise = Nothing : argumentTypes t rest
