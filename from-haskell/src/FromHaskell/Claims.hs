-- |
-- Module      : FromHaskell.Claims
-- Description : Claims of a module
--
-- A claim is a comment @-- ! ..@ on a line of its own. One that stands in a declaration of an action of type IO (), or
-- directly above it, is about that action; any other is about whatever action of the module is asked.
module FromHaskell.Claims
  ( Claim (..)
  , claimsAbout
  ) where

import Data.Char (isSpace)
import Data.List (sortOn)
import qualified Data.Map.Strict as Map
import qualified Data.Set as Set

import FromHaskell.Ghc (Extent (..))
import FromHaskell.Report (Place (..))

-- | A claim: where it begins, and its whole line as it is written.
data Claim = Claim
  { claimPlace :: Place
  , claimLine :: String
  }
  deriving (Eq, Show)

-- | The claims about an action: its name, all actions that can be asked, where line comments begin, the declarations, and
-- the text.
claimsAbout :: String -> Set.Set String -> [Place] -> [Extent] -> String -> [Claim]
claimsAbout asked actions comments extents source =
  [ Claim there line
  | (there, line) <- linesAt 1 (sortOn placeLine comments) (lines source)
  , isClaim line
  , isAbout (namesAt (placeLine there))
  ]
 where
  isAbout names = null names || asked `elem` names || not (any (`Set.member` actions) names)
  namesAt n = concat [names | (names, from, to) <- commented, n <= to, n >= from]
  commented = [(names, from - Map.findWithDefault 0 from above, to) | Extent names from to <- extents]
  -- The comments directly above a declaration belong to it: so many are above each line.
  above = Map.fromList (zip [1 :: Int ..] (scanl (\n line -> if isComment line then n + 1 else 0) 0 (lines source)))
  isComment = (== "--") . take 2 . dropWhile isSpace

-- | Each place with its line, where the places are in order and the first line has this number.
linesAt :: Int -> [Place] -> [String] -> [(Place, String)]
linesAt n (there : rest) source@(line : later)
  | placeLine there <= n = (there, line) : linesAt n rest source
  | otherwise = linesAt (n + 1) (there : rest) later
linesAt _ _ _ = []

-- | Whether the line begins a comment with an exclamation mark.
isClaim :: String -> Bool
isClaim line = case splitAt 2 (dropWhile isSpace line) of
  ("--", rest) -> take 1 (dropWhile isSpace rest) == "!"
  _ -> False
