-- |
-- Module      : FromHaskell.Known
-- Description : Names of base that the evaluator knows itself
--
-- Three tables: functions, methods at instances, and names of the prelude that differ from those of base. All other
-- functions of base are those of the prelude, and what is left is read from the interfaces of its modules.
module FromHaskell.Known
  ( functionArity
  , methodPrimitive
  , preludeName
  , preludeMethod
  , instanceName
  , preludePrimitives
  , isAction
  , refusedNames
  ) where

import Data.List (isPrefixOf, isSuffixOf)
import qualified Data.Map.Strict as Map
import qualified Data.Set as Set

import FromHaskell.Language
import FromHaskell.Report (Cause (..))

-- | How many arguments, types and dictionaries among them, a known function of this module takes.
functionArity :: String -> String -> Maybe Int
functionArity moduleName name
  | moduleName == "Control.Monad.Catch" = Nothing
  | any (`isPrefixOf` moduleName) ["GHC.", "Control.", "Data.", "System."] = Map.lookup name arities
  | otherwise = Nothing

arities :: Map.Map String Int
arities = Map.fromList ([(formFunction f, length (formArguments f)) | f <- forms, formPresent f] ++ otherActions ++ pureFunctions)

otherActions :: [(String, Int)]
otherActions =
  [ ("returnIO", 2), ("bindIO", 4), ("thenIO", 4), ("failIO", 2), ("ioError", 2), ("evaluate", 2)
  , ("catch", 5), ("catchException", 5), ("throwIO", 4), ("bracket", 6)
  , ("hPutStr", 2), ("hPutStrLn", 2), ("hFlush", 1), ("hSetBuffering", 2), ("yield", 0)
  ]

pureFunctions :: [(String, Int)]
pureFunctions =
  [ ("error", 4), ("errorWithoutStackTrace", 3), ("undefined", 3), ("throw", 5)
  , ("patError", 3), ("recSelError", 3), ("recConError", 3), ("noMethodBindingError", 3), ("absentError", 3)
  , ("unpackCString#", 1), ("unpackCStringUtf8#", 1), ("++", 3), ("fromIntegral", 5), ("otherwise", 0)
  , ("isTrue#", 1), ("emptyCallStack", 0), ("pushCallStack", 2)
  , ("$dmfromException", 3), ("$dmtoException", 3), ("$dmdisplayException", 3)
  , ("+#", 2), ("-#", 2), ("*#", 2), ("==#", 2), ("/=#", 2), ("<#", 2), (">#", 2), ("<=#", 2), (">=#", 2), ("tagToEnum#", 2), ("dataToTag#", 2)
  , ("eqInt", 2), ("neInt", 2), ("ltInt", 2), ("leInt", 2), ("gtInt", 2), ("geInt", 2), ("eqString", 2)
  , ("stdout", 0), ("stderr", 0), ("coerce", 4)
  ]

-- | Whether the known function is an action.
isAction :: String -> Bool
isAction name = name `Set.member` names
 where
  names = Set.fromList ("restore" : "getMaskingText" : map fst otherActions ++ map formFunction forms)

-- | The primitives that the prelude declares, with their number of arguments.
preludePrimitives :: [(String, Int)]
preludePrimitives =
  [ ("showNumber", 1), ("referenceCell", 2), ("cellReference", 2), ("getMaskingText", 0)
  , ("semaphoreCell", 1), ("cellSemaphore", 1), ("quantityCell", 1), ("cellQuantity", 1) ]

-- | Names that are refused for a reason of their own.
refusedNames :: String -> Maybe (Cause, String)
refusedNames name = Map.lookup name table
 where
  table = Map.fromList (concat [[(n, (cause, text n)) | n <- words names] | (cause, text, names) <- rows])
  plain n = "`" ++ n ++ "` has no counterpart in a script."
  rows =
    [ (CauseStm, plain, "newTVarIO readTVarIO newTVar readTVar writeTVar atomically retry orElse throwSTM catchSTM registerDelay newTMVar newTMVarIO newEmptyTMVar newEmptyTMVarIO")
    , (CauseEquality, const "Cells are compared.", "sameMVar# sameMutVar# sameTVar#")
    , (CauseLibrary, plain, "isEmptyMVar tryReadMVar unsafePerformIO unsafeDupablePerformIO unsafeInterleaveIO getLine getContents getChar interact readFile writeFile appendFile getArgs getProgName forkOS forkOn runInBoundThread threadStatus mkWeakThreadId mkWeakMVar mkWeakIORef addMVarFinalizer performGC performMajorGC performMinorGC exitWith exitFailure exitSuccess getCurrentTime newStdGen")
    ]

-- | The name by which the prelude has a function of base.
preludeName :: String -> String
preludeName name = Map.findWithDefault name name table
 where
  table =
    Map.fromList
      [ ("$dmshowList", "showListAny"), ("showList__", "showListBy")
      , ("$dmshow", "defaultShow"), ("$dmshowsPrec", "defaultShowsPrec"), ("$dm/=", "defaultUnequal"), ("$dm==", "defaultEqual")
      ]

-- | The name by which the prelude has a method at an instance.
preludeMethod :: String -> String -> String
preludeMethod method instanceOf = Map.findWithDefault method method table ++ "__" ++ instanceOf
 where
  table =
    Map.fromList
      [("<$", "constant"), ("<*>", "apply"), ("*>", "andThen"), ("<*", "andBefore"), ("==", "equal"), ("/=", "unequal"), ("<>", "append")]

-- | The name of an instance's dictionary without its prefix, in letters.
instanceName :: String -> String
instanceName dictionary = fixed (drop 2 dictionary)
 where
  fixed s = case [take (length s - length x) s ++ y | (x, y) <- endings, x `isSuffixOf` s] of
    r : _ -> r
    [] -> s
  endings = [("(,,)", "Triple"), ("(,)", "Pair"), ("[]", "List"), ("()", "Unit")]

-- | The primitive that a method at an instance is, and how many arguments it takes behind the dictionary.
methodPrimitive :: String -> String -> Maybe (String, Int)
methodPrimitive method instanceOf = Map.lookup (method, instanceOf) methods

methods :: Map.Map (String, String) (String, Int)
methods = Map.fromList (monads ++ numbers ++ equalities ++ orders ++ shows')
 where
  monads =
    [ ((">>=", "MonadIO"), ("bindIO", 4)), ((">>", "MonadIO"), ("thenIO", 4)), (("return", "MonadIO"), ("returnIO", 2))
    , (("pure", "ApplicativeIO"), ("returnIO", 2)), (("fail", "MonadFailIO"), ("failIO", 2))
    , (("mask", "MonadMaskIO"), ("mask", 2)), (("uninterruptibleMask", "MonadMaskIO"), ("uninterruptibleMask", 2))
    , (("catch", "MonadCatchIO"), ("catch", 5)), (("throwM", "MonadThrowIO"), ("throwIO", 4))
    ]
  numbers =
    concat
      [ [((o, "Num" ++ t), (p ++ o, 2)) | o <- ["+", "-", "*"]]
          ++ [((m, "Num" ++ t), (p ++ m, 1)) | m <- ["negate", "abs", "signum"]]
          ++ [((m, c ++ t), ("same", 1)) | (m, c) <- [("fromEnum", "Enum"), ("toEnum", "Enum"), ("toInteger", "Integral"), ("toRational", "Real")], m /= "toRational"]
          ++ [((m, "Enum" ++ t), (p ++ m, 1)) | m <- ["succ", "pred"]]
          ++ [((m, "Integral" ++ t), (p ++ m, 2)) | m <- ["div", "mod", "quot", "rem"]]
          ++ [((m, "Ord" ++ t), ("order" ++ m, 2)) | m <- ["max", "min"]]
          ++ [(("show", "Show" ++ t), ("showNumber", 1))]
      | (t, p) <- [("Int", "int"), ("Integer", "integer")]
      ]
      ++ [(("fromInteger", "NumInt"), ("toInt", 1)), (("fromInteger", "NumInteger"), ("same", 1))]
  equalities =
    [ ((o, "Eq" ++ t), ("equal" ++ o, 2))
    | o <- ["==", "/="]
    , t <- words "Int Integer Bool ThreadId Char Ordering ArithException AsyncException MaskingState"
    ]
  orders =
    [((o, "Ord" ++ t), ("order" ++ o, 2)) | o <- ["<", "<=", ">", ">="], t <- ["Int", "Integer", "Char"]]
  shows' =
    [ (("show", "ShowThreadId"), ("showThread", 1)), (("show", "ShowErrorCall"), ("showErrorCall", 1)), (("show", "ShowChar"), ("showCharacter", 1))
    , (("show", "ShowSomeException"), ("showException", 1)), (("displayException", "ExceptionSomeException"), ("showException", 1))
    ]
