-- | A number that threads change. An update takes the number and puts another one back, without a mask.
module CounterWrong (Counter, new, update, value) where

import Control.Concurrent.MVar

newtype Counter = Counter (MVar Int)

new :: Int -> IO Counter
new n = Counter <$> newMVar n

update :: Counter -> (Int -> IO Int) -> IO ()
update (Counter cell) f = do
  n <- takeMVar cell
  m <- f n
  putMVar cell m

value :: Counter -> IO Int
value (Counter cell) = readMVar cell
