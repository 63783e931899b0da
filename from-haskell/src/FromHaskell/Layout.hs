-- |
-- Module      : FromHaskell.Layout
-- Description : Text that is broken into lines
--
-- A document is laid out in lines of at most so many columns: a group stands on one line where it fits, else each of
-- its own breaks becomes a line.
module FromHaskell.Layout
  ( Layout
  , text
  , lineOr
  , nest
  , group
  , separated
  , render
  ) where

-- | A text with places at which it may be broken.
data Layout
  = Empty
  | Plain String
  | Break String
  | Nest Int Layout
  | Group Layout
  | Then Layout Layout

instance Semigroup Layout where
  (<>) = Then

instance Monoid Layout where
  mempty = Empty

-- | A text without a line feed.
text :: String -> Layout
text = Plain

-- | A line feed where the group is broken, else this text.
lineOr :: String -> Layout
lineOr = Break

-- | The lines inside begin so many columns further on.
nest :: Int -> Layout -> Layout
nest = Nest

-- | On one line where it fits.
group :: Layout -> Layout
group = Group

-- | The parts with this between them.
separated :: Layout -> [Layout] -> Layout
separated _ [] = Empty
separated between parts = foldr1 (\a b -> a <> between <> b) parts

data Mode = Flat | Broken

-- | The text, in lines of at most so many columns where that is possible.
render :: Int -> Layout -> String
render width layout = go 0 [(0, Broken, layout)]
 where
  go _ [] = ""
  go column ((indent, mode, part) : rest) = case part of
    Empty -> go column rest
    Plain s -> s ++ go (column + length s) rest
    Then a b -> go column ((indent, mode, a) : (indent, mode, b) : rest)
    Nest n a -> go column ((indent + n, mode, a) : rest)
    Group a
      | fits (width - column) ((indent, Flat, a) : rest) -> go column ((indent, Flat, a) : rest)
      | otherwise -> go column ((indent, Broken, a) : rest)
    Break s -> case mode of
      Flat -> s ++ go (column + length s) rest
      Broken -> '\n' : replicate indent ' ' ++ go indent rest
  fits room _ | room < 0 = False
  fits _ [] = True
  fits room ((indent, mode, part) : rest) = case part of
    Empty -> fits room rest
    Plain s -> fits (room - length s) rest
    Then a b -> fits room ((indent, mode, a) : (indent, mode, b) : rest)
    Nest n a -> fits room ((indent + n, mode, a) : rest)
    Group a -> fits room ((indent, mode, a) : rest)
    Break s -> case mode of
      Flat -> fits (room - length s) rest
      Broken -> True
