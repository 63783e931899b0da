-- |
-- Module      : FromHaskell.Report
-- Description : Places, refusals and notes
--
-- What the translator tells a user. Each refusal has one 'Cause' and each note has one 'NoteClass'; both are closed
-- tables, so that a document can list them all and a test can hold the document against them.
module FromHaskell.Report
  ( Place (..)
  , nowhere
  , Cause (..)
  , Refusal (..)
  , causeName
  , causeReason
  , causeRemedy
  , NoteClass (..)
  , Note (..)
  , noteName
  , renderRefusal
  , renderNote
  , renderPlace
  ) where

import Control.Exception (Exception)

-- | A place of the Haskell source.
data Place = Place
  { placeFile :: FilePath
  , placeLine :: Int
  , placeColumn :: Int
  }
  deriving (Eq, Ord, Show)

-- | The place of what has none.
nowhere :: Place
nowhere = Place "?" 0 0

-- | Why a program is refused.
data Cause
  = CauseLibrary
  | CauseStm
  | CauseKept
  | CauseType
  | CauseUnknownFunction
  | CauseMaskingName
  | CauseText
  | CauseEndless
  | CauseForms
  | CauseExceptionFields
  | CauseExceptionKind
  | CauseStrict
  | CausePrintedText
  | CauseCallStack
  | CauseBuffering
  | CauseNumber
  | CauseLiteral
  | CauseEquality
  | CauseUnsafe
  | CauseLimit
  | CauseEvaluator
  deriving (Bounded, Enum, Eq, Ord, Show)

-- | The program isn't translated: where, why, and what of it.
data Refusal = Refusal
  { refusalPlace :: Place
  , refusalCause :: Cause
  , refusalDetail :: String
  }
  deriving (Eq, Show)

instance Exception Refusal

-- | The word by which the documents call a cause.
causeName :: Cause -> String
causeName cause = let (name, _, _) = causeRow cause in name

-- | Why such a thing can't be translated.
causeReason :: Cause -> String
causeReason cause = let (_, reason, _) = causeRow cause in reason

-- | What to write in its place.
causeRemedy :: Cause -> String
causeRemedy cause = let (_, _, remedy) = causeRow cause in remedy

causeRow :: Cause -> (String, String, String)
causeRow cause = case cause of
  CauseLibrary ->
    ( "library", "the language of scripts has nothing for it, and its own text isn't read"
    , "leave it out of the question, or write what it does by MVars and the functions of docs/HASKELL.md" )
  CauseStm ->
    ("stm", "the language of scripts has no transactions", "ask the same question of MVars")
  CauseKept ->
    ( "kept", "a cell keeps a function or an action as a tag with what it is made of, and one that holds another of its own type has no end"
    , "keep a value that says which function or action is meant, and choose it where it is used" )
  CauseType ->
    ( "type", "values of this type can't be kept in a script"
    , "use Int, Bool, String, (), lists, Maybe, Either, tuples, MVars, or data of these that isn't recursive" )
  CauseUnknownFunction ->
    ( "unknown-function", "which function or action this is isn't known before the program runs"
    , "choose between functions by a value, where they are called" )
  CauseMaskingName ->
    ( "masking-name", "a masking name of a script can't be handed on to a function that calls itself"
    , "put the loop's body, without the loop, into the function that gets the masking name" )
  CauseText ->
    ( "text", "a text that isn't known before the program runs has no characters in a script"
    , "keep numbers or an enumeration in the cell, and make the text where it is printed" )
  CauseEndless ->
    ( "endless", "a script's lists are built whole, so one without end never is"
    , "take as many elements as are needed" )
  CauseForms ->
    ( "forms", "the function would need a definition of its own for too many kinds of arguments"
    , "call it with values in place of functions, or make fewer rounds that are known beforehand" )
  CauseExceptionFields ->
    ( "exception-fields", "an exception of a script carries a text and no other fields"
    , "catch an exception type without fields, or ErrorCall with a text" )
  CauseExceptionKind ->
    ( "exception-kind", "the language of scripts hasn't this exception"
    , "throw ErrorCall, or an exception type of your own without fields" )
  CauseStrict ->
    ( "strict", "a script evaluates it here, Haskell only where it is used, and it may throw or not end"
    , "evaluate it here in Haskell too (evaluate, $!, a bang, a strict field), or use --strict" )
  CausePrintedText ->
    ( "printed-text", "GHC may print the front of a text before the rest of it throws; a script prints all or nothing"
    , "evaluate the part that may throw before it is printed (evaluate, $!), or use --strict" )
  CauseCallStack ->
    ( "call-stack", "the text of an exception that `error` threw has GHC's call stack, and a script's hasn't"
    , "throw (ErrorCall text), use errorWithoutStackTrace, or match the pattern ErrorCall; or use --strict" )
  CauseBuffering ->
    ( "buffering", "without a buffer the texts of two threads mix by characters; a script prints a text as one piece"
    , "leave the buffering as it is, or set LineBuffering" )
  CauseNumber ->
    ("number", "a script's numbers are Int, and Integer within 64 bits", "use Int")
  CauseLiteral ->
    ("literal", "the language of scripts has no such constant", "use Int, Char and String constants")
  CauseEquality ->
    ("equality", "a script compares no cells", "give each cell a number of its own, and compare these")
  CauseUnsafe ->
    ( "unsafe", "it can run a program or read a file while the module is only read"
    , "take it out, or use --trust where you know what it does" )
  CauseLimit ->
    ("limit", "a script has at most 64 names in a scope, and definitions of a limited size", "ask a smaller question")
  CauseEvaluator ->
    ( "evaluator", "the translator doesn't know what this is before the program runs"
    , "write it by the functions of docs/HASKELL.md" )

-- | What a note is about.
data NoteClass
  = NoteStrict
  | NoteOwnException
  | NoteCallStack
  | NoteUserError
  | NotePattern
  | NoteHandler
  | NoteMaskedPrint
  | NoteInteger
  | NoteTrust
  deriving (Bounded, Enum, Eq, Ord, Show)

-- | A place at which the script differs from the program, or may.
data Note = Note
  { notePlace :: Place
  , noteClass :: NoteClass
  , noteText :: String
  }
  deriving (Eq, Ord, Show)

-- | The word by which the documents call a class of notes.
noteName :: NoteClass -> String
noteName kind = case kind of
  NoteStrict -> "strict"
  NoteOwnException -> "own-exception"
  NoteCallStack -> "call-stack"
  NoteUserError -> "user-error"
  NotePattern -> "pattern"
  NoteHandler -> "handler"
  NoteMaskedPrint -> "masked-print"
  NoteInteger -> "integer"
  NoteTrust -> "trust"

-- | @FILE:LINE:COL@, as GHC writes it.
renderPlace :: Place -> String
renderPlace (Place file line column) = file ++ ":" ++ show line ++ ":" ++ show column

-- | A refusal in the shape of GHC's errors.
renderRefusal :: Refusal -> String
renderRefusal (Refusal place cause detail) =
  unlines
    [ renderPlace place ++ ": error: [" ++ causeName cause ++ "]"
    , "    " ++ detail
    , "    Why: " ++ causeReason cause ++ "."
    , "    What to do: " ++ causeRemedy cause ++ "."
    ]

-- | A note in the shape of GHC's warnings.
renderNote :: Note -> String
renderNote (Note place kind text) = renderPlace place ++ ": note: [" ++ noteName kind ++ "] " ++ text ++ "\n"
