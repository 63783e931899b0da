-- | The values of expressions: strict, evaluated from the left to the right, the first exception is the answer.
module Litmus.Values
  ( -- * Strictness
    strict

    -- * Numbers
  , (+)
  , (-)
  , (*)
  , negate
  , div
  , mod

    -- * Truth and comparisons
  , (&&)
  , (||)
  , not
  , Equal
  , (==)
  , (/=)
  , Ord
  , (<)
  , (<=)
  , (>)
  , (>=)

    -- * Texts
  , text
  , (++)
  , Shown
  , show

    -- * Parts and wholes
  , pair
  , fst
  , snd
  , just
  , left
  , right
  , list
  , (.:)

    -- * Exceptions
  , errorCall
  , threadKilled
  , userInterrupt
  , divideByZero
  , overflow
  , exceptionText
  )
where

import Control.Concurrent.Async (AsyncCancelled (..))
import Control.Exception
  ( ArithException (..)
  , AsyncException (..)
  , BlockedIndefinitelyOnMVar (..)
  , BlockedIndefinitelyOnSTM (..)
  , ErrorCall (..)
  , Exception (..)
  , SomeException (..)
  , throw
  )
import qualified Data.ByteString as ByteString
import qualified Data.ByteString.Char8 as Char8
import Data.Text (Text)
import qualified Data.Text as Text
import qualified Data.Text.Encoding as Text
import GHC.Conc (pseq)
import Litmus.Run (ThreadId (..))
import System.Timeout (Timeout)
import Prelude hiding (div, mod, negate, show, (*), (+), (++), (-), (/=), (<), (<=), (==), (>), (>=))
import qualified Prelude

infixl 7 *
infixl 6 +, -
infixr 5 .:, ++
infix 4 ==, /=, <, <=, >, >=

-- | The function of the value, once that is evaluated.
strict :: (a -> b) -> a -> b
strict function value = value `pseq` function value

-- | The function of both values, evaluated one behind the other.
both :: (a -> b -> c) -> a -> b -> c
both function one other = one `pseq` (other `pseq` function one other)

(+), (-), (*), div, mod :: Int -> Int -> Int
(+) = both (Prelude.+)
(-) = both (Prelude.-)
(*) = both (Prelude.*)
div = both Prelude.div
mod = both Prelude.mod

negate :: Int -> Int
negate = Prelude.negate

(<), (<=), (>), (>=) :: Ord a => a -> a -> Bool
(<) = both (Prelude.<)
(<=) = both (Prelude.<=)
(>) = both (Prelude.>)
(>=) = both (Prelude.>=)

-- | What scripts compare.
class Equal a where
  equal :: a -> a -> Bool

(==), (/=) :: Equal a => a -> a -> Bool
(==) = both equal
(/=) = both (\one other -> not (equal one other))

instance Equal Int where
  equal = (Prelude.==)

instance Equal Bool where
  equal = (Prelude.==)

instance Equal Text where
  equal = (Prelude.==)

instance Equal ThreadId where
  equal (ThreadId one _) (ThreadId other _) = one Prelude.== other

-- | Exceptions are equal where constructor and content are.
instance Equal SomeException where
  equal one other = case (sortOf one, sortOf other) of
    (OfError a, OfError b) -> a Prelude.== b
    (OfArithmetic a, OfArithmetic b) -> a Prelude.== b
    (OfOthers a, OfOthers b) -> a Prelude.== b
    (OfTimeout a, OfTimeout b) -> a Prelude.== b
    (OfText, OfText) -> True
    (Blocked, Blocked) -> True
    (_, _) -> False

-- | An exception by its constructor. A cancelled Async is killed, and who waits for one waits for a cell, as in scripts.
data Sort
  = OfError String
  | OfArithmetic ArithException
  | OfOthers AsyncException
  | OfTimeout Timeout
  | OfText
  | Blocked
  | Unknown

sortOf :: SomeException -> Sort
sortOf exception
  | Just (ErrorCall message) <- fromException exception = OfError message
  | Just arithmetic <- fromException exception = OfArithmetic arithmetic
  | Just AsyncCancelled <- fromException exception = OfOthers ThreadKilled
  | Just others <- fromException exception = OfOthers others
  | Just timeout <- fromException exception = OfTimeout timeout
  | Just TextLimit <- fromException exception = OfText
  | Just BlockedIndefinitelyOnMVar <- fromException exception = Blocked
  | Just BlockedIndefinitelyOnSTM <- fromException exception = Blocked
  | otherwise = Unknown

-- | What scripts show.
class Shown a where
  show :: a -> Text

instance Shown Int where
  show = Text.pack . Prelude.show

instance Shown Bool where
  show = Text.pack . Prelude.show

instance Shown ThreadId where
  show (ThreadId number _) = Text.pack ("ThreadId " <> Prelude.show number)

instance Shown SomeException where
  show = exceptionText

-- | The text of an exception.
exceptionText :: SomeException -> Text
exceptionText exception = Text.pack $ case sortOf exception of
  OfError message -> message
  OfArithmetic arithmetic -> Prelude.show arithmetic
  OfOthers others -> Prelude.show others
  OfTimeout timeout -> Prelude.show timeout
  OfText -> Prelude.show TextLimit
  Blocked -> Prelude.show BlockedIndefinitelyOnMVar
  Unknown -> displayException exception

-- | The exception of a text that is too long.
data TextLimit = TextLimit

instance Show TextLimit where
  show TextLimit = "text too long"

instance Exception TextLimit

-- | The text with these bytes, each a character.
text :: String -> Text
text = limited . Text.decodeUtf8 . Char8.pack

(++) :: Text -> Text -> Text
(++) = both (\one other -> limited (one <> other))

-- | A text of at most 65,536 bytes; only one of a quarter as many characters needs to be counted.
limited :: Text -> Text
limited whole
  | Text.length whole Prelude.> 16384 && ByteString.length (Text.encodeUtf8 whole) Prelude.> 65536 = throw TextLimit
  | otherwise = whole

pair :: a -> b -> (a, b)
pair = both (,)

just :: a -> Maybe a
just = strict Just

left :: a -> Either a b
left = strict Left

right :: b -> Either a b
right = strict Right

-- | A list in front of which a value is put.
(.:) :: a -> [a] -> [a]
(.:) = both (:)

list :: [a] -> [a]
list = foldr (.:) []

errorCall :: Text -> SomeException
errorCall = strict (toException . ErrorCall . Text.unpack)

threadKilled, userInterrupt, divideByZero, overflow :: SomeException
threadKilled = toException ThreadKilled
userInterrupt = toException UserInterrupt
divideByZero = toException DivideByZero
overflow = toException Overflow
