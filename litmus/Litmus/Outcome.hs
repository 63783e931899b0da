-- | What a run comes to, and the text of what many runs came to: in the order and the form of @conc_run outcomes@, with a
-- count behind the end.
module Litmus.Outcome
  ( End (..)
  , Outcome (..)
  , Result (..)
  , Counts
  , counting
  , listing
  )
where

import Data.Map.Strict (Map)
import qualified Data.Map.Strict as Map
import Data.Text (Text)
import qualified Data.Text as Text

-- | How a run ended, in the order of lists.
data End = Done | Uncaught | Deadlock
  deriving (Eq, Ord)

-- | How a run ended, its output and its error output. Texts are in the order of their characters, which is that of their
-- bytes.
data Outcome = Outcome !End !Text !Text
  deriving (Eq, Ord)

-- | An outcome, or that the run wasn't over in time, which comes last.
data Result = Ended !Outcome | NoEnd
  deriving (Eq, Ord)

-- | How often each result came.
type Counts = Map Result Int

-- | One more run with this result.
counting :: Result -> Counts -> Counts
counting result = Map.insertWith (+) result 1

-- | The text of what the runs came to.
listing :: Counts -> Text
listing counts = Text.concat (first : empty ++ zipWith block [1 ..] outcomes ++ without)
  where
    runs = sum (Map.elems counts)
    outcomes = [(outcome, count) | (Ended outcome, count) <- Map.toAscList counts]
    first = number (length outcomes) <> said <> number runs <> Text.pack " runs\n"
    said = Text.pack (if length outcomes == 1 then " outcome in " else " outcomes in ")
    empty = [Text.pack "\n" | not (Map.null counts)]
    without = [Text.pack "no end, " <> share count <> Text.pack "\n" | Just count <- [Map.lookup NoEnd counts]]
    share count = number count <> Text.pack " of " <> number runs <> Text.pack " runs"
    block place (Outcome how output errors, count) =
      Text.concat
        [ number (place :: Int) <> Text.pack ". " <> endWord how <> Text.pack ", " <> share count <> Text.pack "\n"
        , if Text.null output then Text.pack "   output: none\n" else Text.pack "   output:\n" <> textLines output
        , if Text.null errors then Text.empty else Text.pack "   errors:\n" <> textLines errors
        ]

endWord :: End -> Text
endWord Done = Text.pack "done"
endWord Uncaught = Text.pack "uncaught"
endWord Deadlock = Text.pack "deadlock"

number :: Int -> Text
number = Text.pack . show

-- | A line with its line feed stands behind @|@, a last one without it behind @:@.
textLines :: Text -> Text
textLines text = Text.concat (map whole (init parts) ++ [cut (last parts) | not (Text.null (last parts))])
  where
    parts = Text.split (== '\n') text
    whole line = Text.pack "     | " <> line <> Text.pack "\n"
    cut line = Text.pack "     : " <> line <> Text.pack "\n"
