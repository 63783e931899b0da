-- |
-- Module      : FromHaskell.Finish
-- Description : From definitions to the text of a script
--
-- What can be said only when all definitions are made: which of them are needed, whether numbers of Integer can leave
-- 64 bits, and which notes and refusals rest on two places of the program.
module FromHaskell.Finish
  ( finish
  ) where

import Control.Monad (forM_, unless, when)
import qualified Data.Map.Strict as Map
import qualified Data.Set as Set
import System.FilePath (takeFileName)

import FromHaskell.Claims
import FromHaskell.Exceptions (settleHandlers)
import FromHaskell.Integers
import FromHaskell.Keep (settledTypes)
import FromHaskell.Language (reservedWords)
import FromHaskell.Limits
import FromHaskell.Monad
import FromHaskell.Print
import FromHaskell.Reify (strictHere)
import FromHaskell.Report
import FromHaskell.Script
import FromHaskell.Share (share)
import FromHaskell.Specialise (settlePending)
import FromHaskell.Tidy

-- | The text of the script whose main function is the definition of this name, with these claims.
finish :: Name -> [Claim] -> Translate String
finish entry claims = do
  settlePending
  settleHandlers
  settleCallStacks
  settlePrints
  keeps <- get worldKept
  made <- map (settledTypes keeps) <$> get worldDefinitions
  functions <- get worldFunctions
  let needed = reachable entry made
      (others, mains) = (filter ((/= entry) . definitionName) needed, filter ((== entry) . definitionName) needed)
      ordered = reverse others ++ map asMain mains
      (helpers, plain) = integers ordered
      text d = concat [concatMap printClaim claims | definitionName d == "main"] ++ printDefinition d
      taken = Set.unions [Set.insert "main" functions, Set.fromList integerNames, reservedWords]
  forM_ plain $ \d -> mapM_ (refuseAt (definitionPlace d) CauseLimit) (beyondLimits d)
  unless (null helpers) settleIntegers
  return (helpers ++ concatMap (text . tidy taken . share) plain)
 where
  asMain d = d {definitionName = "main"}

-- | A claim as it is written, below the line that says where.
printClaim :: Claim -> String
printClaim (Claim (Place file line _) written) = "-- " ++ takeFileName file ++ ":" ++ show line ++ "\n" ++ filter (/= '\r') written ++ "\n"

-- | Where Integers are checked, a handler of all exceptions takes the mark too.
settleIntegers :: Translate ()
settleIntegers = do
  handlers <- get worldCatchAll
  entry <- get worldEntry
  noteAt entry NoteInteger "Where an Integer leaves 64 bits, the script throws `text too long`, and its list isn't exact."
  forM_ (reverse handlers) $ \here -> noteAt here NoteInteger "This handler takes the mark of an Integer beyond 64 bits."

-- | The definitions that this one needs, and it.
reachable :: Name -> [Definition] -> [Definition]
reachable entry made = filter ((`Set.member` needed) . definitionName) made
 where
  calls = Map.fromList [(definitionName d, callsOf (definitionBody d)) | d <- made]
  needed = go Set.empty [entry]
  go seen names = case names of
    [] -> seen
    n : rest
      | n `Set.member` seen -> go seen rest
      | otherwise -> go (Set.insert n seen) (Map.findWithDefault [] n calls ++ rest)

-- | The text of an exception that `error` threw is refused where it is shown, or noted.
settleCallStacks :: Translate ()
settleCallStacks = do
  thrown <- get worldStackThrown
  shown <- get worldStackShown
  unless (null thrown) $
    forM_ (reverse shown) $ \here ->
      at here $ strictHere CauseCallStack "The text of an exception that isn't known is shown, and `error` is called."

-- | A print under a mask, beside another thread that prints: GHC may interrupt it.
settlePrints :: Translate ()
settlePrints = do
  prints <- get worldPrints
  let threads = Set.fromList [thread | (thread, _, _) <- prints]
  throwers <- get worldThrowers
  let mayBeHit thread
        | thread == 0 = any (`Set.member` throwers) ["timeout", "myThreadId"]
        | otherwise = not (Set.null throwers)
  when (Set.size threads > 1) $
    forM_ (reverse prints) $ \(thread, isMasked, here) ->
      when (isMasked && mayBeHit thread) $ noteAt here NoteMaskedPrint "A print under a mask: GHC may interrupt it where another thread prints, a script never."
