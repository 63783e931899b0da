-- |
-- Module      : FromHaskell.Language
-- Description : What the language of scripts has
--
-- The reserved words of the language, and the table of its forms that are functions of Haskell. How a form is made and
-- printed follows from its row alone. So a form that comes later is one row here; until then what the function means is
-- read from the prelude.
module FromHaskell.Language
  ( reservedWords
  , Form (..)
  , Part (..)
  , Answer (..)
  , forms
  , formOf
  ) where

import qualified Data.Map.Strict as Map
import qualified Data.Set as Set

import FromHaskell.Script (Name)

-- | The words that no name of a script can be.
reservedWords :: Set.Set Name
reservedWords =
  Set.fromList . words $
    "True False Nothing Just Left Right ErrorCall ThreadKilled UserInterrupt DivideByZero Overflow Int Bool Text ThreadId "
      ++ "SomeException Maybe Either MVar IO if then else case of let in div mod not fst snd show return throwIO putStr "
      ++ "putStrLn hPutStrLn stderr newMVar newEmptyMVar takeMVar putMVar readMVar tryTakeMVar tryPutMVar modifyMVar_ "
      ++ "forkIO forkIOWithUnmask myThreadId throwTo killThread threadDelay clockMicros getMaskingState catch mask mask_ "
      ++ "uninterruptibleMask uninterruptibleMask_ restore onException bracket finally timeout Async withAsync wait "
      ++ "cancel race concurrently "
      ++ "ArithException AsyncException SomeAsyncException BlockedIndefinitelyOnMVar try handle bracket_ bracketOnError "
      ++ "withMVar withMVarMasked modifyMVar modifyMVarMasked_ modifyMVarMasked swapMVar isEmptyMVar tryReadMVar "
      ++ "forkFinally interruptible allowInterrupt evaluate yield waitCatch poll race_ concurrently_"

-- | What an argument of a form's function is. A number says which argument is the type that is meant.
data Part
  = Passed                   -- ^ a type or dictionary: nothing stands for it
  | Marked                   -- ^ a type that stands behind an @\@@
  | CellOf Int
  | ValueOf Int              -- ^ a value that Haskell doesn't evaluate here
  | NumberPart
  | TextPart
  | ThreadPart
  | ExceptionPart Int Int    -- ^ an exception: which arguments are its type and its dictionary
  | BlockPart (Maybe Int)    -- ^ an action, whose answer has this type, or ()
  | NamedPart Int Int        -- ^ a function from a value of the first type to an action whose answer has the second
  | MaskingPart (Maybe Int)  -- ^ a function that gets a masking name
  deriving (Eq, Show)

-- | What a form answers.
data Answer
  = AnswerUnit
  | AnswerBool
  | AnswerThread
  | AnswerType Int           -- ^ a value of this type
  | AnswerMaybe Int
  | AnswerCell Int
  | AnswerOfBlock Int        -- ^ what the block answers whose type this is
  deriving (Eq, Show)

-- | A form: the function of Haskell and its word in the script, its arguments, types and dictionaries among them, what it
-- answers, and whether the language has it today.
data Form = Form
  { formFunction :: String
  , formArguments :: [Part]
  , formAnswer :: Answer
  , formPresent :: Bool
  }

-- | The forms. Those that aren't present are read from the prelude, or refused.
forms :: [Form]
forms =
  [ Form "newEmptyMVar" [Marked] (AnswerCell 0) True
  , Form "newMVar" [Passed, ValueOf 0] (AnswerCell 0) True
  , Form "takeMVar" [Passed, CellOf 0] (AnswerType 0) True
  , Form "readMVar" [Passed, CellOf 0] (AnswerType 0) True
  , Form "putMVar" [Passed, CellOf 0, ValueOf 0] AnswerUnit True
  , Form "tryTakeMVar" [Passed, CellOf 0] (AnswerMaybe 0) True
  , Form "tryPutMVar" [Passed, CellOf 0, ValueOf 0] AnswerBool True
  , Form "isEmptyMVar" [Passed, CellOf 0] AnswerBool False
  , Form "tryReadMVar" [Passed, CellOf 0] (AnswerMaybe 0) False
  , Form "swapMVar" [Passed, CellOf 0, ValueOf 0] (AnswerType 0) False
  , Form "modifyMVar_" [Passed, CellOf 0, NamedPart 0 0] AnswerUnit True
  , Form "modifyMVarMasked_" [Passed, CellOf 0, NamedPart 0 0] AnswerUnit False
  , Form "withMVar" [Passed, Passed, CellOf 0, NamedPart 0 1] (AnswerOfBlock 1) False
  , Form "withMVarMasked" [Passed, Passed, CellOf 0, NamedPart 0 1] (AnswerOfBlock 1) False
  , Form "forkIO" [BlockPart Nothing] AnswerThread True
  , Form "forkIOWithUnmask" [MaskingPart Nothing] AnswerThread True
  , Form "myThreadId" [] AnswerThread True
  , Form "killThread" [ThreadPart] AnswerUnit True
  , Form "throwTo" [Passed, Passed, ThreadPart, ExceptionPart 0 1] AnswerUnit True
  , Form "threadDelay" [NumberPart] AnswerUnit True
  , Form "mask" [Passed, MaskingPart (Just 0)] (AnswerOfBlock 0) True
  , Form "mask_" [Passed, BlockPart (Just 0)] (AnswerOfBlock 0) True
  , Form "uninterruptibleMask" [Passed, MaskingPart (Just 0)] (AnswerOfBlock 0) True
  , Form "uninterruptibleMask_" [Passed, BlockPart (Just 0)] (AnswerOfBlock 0) True
  , Form "onException" [Passed, Passed, BlockPart (Just 0), BlockPart (Just 1)] (AnswerOfBlock 0) True
  , Form "finally" [Passed, Passed, BlockPart (Just 0), BlockPart (Just 1)] (AnswerOfBlock 0) True
  , Form "bracket_" [Passed, Passed, Passed, BlockPart (Just 0), BlockPart (Just 1), BlockPart (Just 2)] (AnswerOfBlock 2) False
  , Form "timeout" [Passed, NumberPart, BlockPart (Just 0)] (AnswerMaybe 0) True
  , Form "interruptible" [Passed, BlockPart (Just 0)] (AnswerOfBlock 0) False
  , Form "allowInterrupt" [] AnswerUnit False
  , Form "putStr" [TextPart] AnswerUnit True
  , Form "putStrLn" [TextPart] AnswerUnit True
  ]

-- | The form of a function, where the language has it.
formOf :: String -> Maybe Form
formOf name = Map.lookup name table
 where
  table = Map.fromList [(formFunction f, f) | f <- forms, formPresent f]
