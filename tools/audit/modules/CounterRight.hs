-- | A number that threads change. An update that is cut off leaves the number as it was.
module CounterRight (Counter, new, update, value) where

import Control.Concurrent.MVar

newtype Counter = Counter (MVar Int)

new :: Int -> IO Counter
new n = Counter <$> newMVar n

update :: Counter -> (Int -> IO Int) -> IO ()
update (Counter cell) = modifyMVar_ cell

value :: Counter -> IO Int
value (Counter cell) = readMVar cell
