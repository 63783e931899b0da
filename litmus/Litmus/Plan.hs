-- | Where and how a run is made to wait: a plan is drawn anew for each run, so that runs of one script differ.
module Litmus.Plan
  ( -- * Places
    Place (..)
  , Side (..)

    -- * Plans
  , Plan
  , drawPlan
  , isKnown
  , pauseAt
  , Pause (..)

    -- * Numbers that look random
  , mix
  , pick
  )
where

import Data.Bits (shiftR, xor)
import Data.Map.Strict (Map)
import qualified Data.Map.Strict as Map
import Data.Set (Set)
import qualified Data.Set as Set
import Data.Word (Word64)

-- | Before an action, or behind the last one of a block.
data Side = Before | Behind
  deriving (Eq, Ord)

-- | A place of a run: the number of the thread, and line and column of an action of the script.
data Place = Place !Int !Int !Int !Side
  deriving (Eq, Ord)

-- | What a thread does at a place.
data Pause
  = -- | goes on
    GoOn
  | -- | lets others run, so many times
    Yield !Int
  | -- | computes, so many rounds
    Spin !Int
  | -- | sleeps so many microseconds, and nothing can interrupt that
    Hold !Int

-- | How threads wait at places that aren't held.
data Style
  = -- | nowhere
    Nowhere
  | -- | one yield at a quarter of the places, drawn anew each time
    Seldom
  | -- | up to three yields
    Often
  | -- | some computing
    Computing
  | -- | yields by the place, mostly none and up to 40
    ByPlace
  | -- | yields by the thread, in the same way
    ByThread
  | -- | yields, drawn anew each time, in the same way
    Unevenly
  deriving (Eq)

-- | A plan of one run.
data Plan = Plan
  { planSeed :: !Word64
  , planStyle :: !Style
  , planKnown :: !(Set Place)
  , planHeld :: !(Map Place Int)
  }

-- | How many places are held, and how threads wait elsewhere. To hold one to three places while all others go on is what
-- shows most, so most plans do.
manners :: [(Int, Style)]
manners =
  [(0, style) | style <- [Nowhere, Seldom, Often, Computing, ByPlace, ByThread, Unevenly]]
    ++ [(count, style) | count <- [1, 2, 3], style <- [Nowhere, Seldom, ByPlace]]
    ++ [(count, Nowhere) | count <- [1, 2, 3, 4]]

-- | The plan of a seed, where the script is known to have these places.
drawPlan :: Word64 -> Set Place -> Plan
drawPlan seed known =
  Plan
    { planSeed = seed
    , planStyle = style
    , planKnown = known
    , planHeld = Map.fromList (take count (held 2))
    }
  where
    (count, style) = manners !! pick (mix (seed + 1)) (length manners)
    held turn
      | Set.null known = []
      | otherwise = (Set.elemAt (pick (mix (seed + turn)) (Set.size known)) known, long (mix (seed - turn))) : held (turn + 1)
    long number = [300, 400, 500, 800, 1000] !! pick number 5

-- | Whether the plan was drawn with this place among those that it may hold.
isKnown :: Plan -> Place -> Bool
isKnown plan place = Set.member place (planKnown plan)

-- | What the plan says of a place; the number is one that is drawn anew for each visit.
pauseAt :: Plan -> Place -> Word64 -> Pause
pauseAt plan place number = case Map.lookup place (planHeld plan) of
  Just time -> Hold time
  Nothing -> case planStyle plan of
    Nowhere -> GoOn
    Seldom -> if pick number 4 == 0 then Yield 1 else GoOn
    Often -> Yield (pick number 4)
    Computing -> Spin (pick number 4096)
    ByPlace -> Yield (uneven (mix (planSeed plan + placeNumber place)))
    ByThread -> Yield (uneven (mix (planSeed plan + threadNumber place)))
    Unevenly -> Yield (uneven number)

-- | Mostly 0, and up to 40.
uneven :: Word64 -> Int
uneven number = ([40, 12, 5, 3, 2, 1, 1, 1] ++ replicate 8 0) !! pick number 16

placeNumber, threadNumber :: Place -> Word64
placeNumber (Place thread line column side) =
  fromIntegral (thread * 1000003 + line * 8191 + column * 2) + (if side == Before then 0 else 1)
threadNumber (Place thread _ _ _) = fromIntegral thread * 77

-- | Spreads a number over all others, as @splitmix@ does.
mix :: Word64 -> Word64
mix start = third `xor` (third `shiftR` 31)
  where
    first = start * 0x9e3779b97f4a7c15 + 0x632be59bd9b4e019
    second = (first `xor` (first `shiftR` 30)) * 0xbf58476d1ce4e5b9
    third = (second `xor` (second `shiftR` 27)) * 0x94d049bb133111eb

-- | A number below the bound.
pick :: Word64 -> Int -> Int
pick number bound = fromIntegral ((number `shiftR` 16) `mod` fromIntegral bound)
