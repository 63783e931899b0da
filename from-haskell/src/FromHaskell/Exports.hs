-- |
-- Module      : FromHaskell.Exports
-- Description : What a module exports, for a program that makes questions of it
--
-- One value of JSON: the exports with their places and types, and the comments of the module that begin with a word of
-- their own, @-- audit:@.
module FromHaskell.Exports
  ( writeExports
  , auditComments
  ) where

import Data.Char (isSpace, ord)
import Data.List (intercalate, isPrefixOf)
import Numeric (showHex)

import FromHaskell.Ghc (Export (..), TypeShape (..))
import FromHaskell.Report (Place (..))

-- | The exports, and of the comments that begin at these places in the source those for an audit.
writeExports :: [Place] -> String -> [Export] -> String
writeExports comments source found = object [("exports", list (map export found)), ("comments", list (map text (auditComments comments source)))] ++ "\n"

-- | What comments say behind the word for an audit.
auditComments :: [Place] -> String -> [String]
auditComments comments source = [dropWhile isSpace (drop (length word) said) | Place _ line column <- comments, said <- comment line column, word `isPrefixOf` said]
 where
  word = "audit:"
  comment line column = [dropWhile isSpace (dropWhile (== '-') (drop (column - 1) l)) | l <- take 1 (drop (line - 1) (lines source))]

export :: Export -> String
export e = object ([("name", text (exportName e))] ++ maybe [] place (exportPlace e) ++ [("type", shape t) | Just t <- [exportType e]])
 where
  place (Place file line _) = [("file", text file), ("line", show line)]

-- | A type as a list whose first word says which form it has.
shape :: TypeShape -> String
shape t = list $ case t of
  ShapeVariable v -> [text "variable", text v]
  ShapeConstructor c arguments -> text "constructor" : text c : map shape arguments
  ShapeApplied f a -> [text "applied", shape f, shape a]
  ShapeFunction a r -> [text "function", shape a, shape r]
  ShapeClasses classes inner -> [text "classes", list (map shape classes), shape inner]
  ShapeOther s -> [text "other", text s]

object :: [(String, String)] -> String
object fields = "{" ++ intercalate ", " [text name ++ ": " ++ value | (name, value) <- fields] ++ "}"

list :: [String] -> String
list values = "[" ++ intercalate ", " values ++ "]"

text :: String -> String
text s = "\"" ++ concatMap escaped s ++ "\""
 where
  escaped c
    | c `elem` "\"\\" = ['\\', c]
    | ord c < 32 = "\\u" ++ replicate (4 - length (hex c)) '0' ++ hex c
    | otherwise = [c]
  hex c = showHex (ord c) ""
