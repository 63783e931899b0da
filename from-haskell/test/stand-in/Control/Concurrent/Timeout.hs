-- | Stands for the module of that name of the library unbounded-delays: a time limit of any length.
module Control.Concurrent.Timeout (timeout) where

import qualified System.Timeout

timeout :: Integer -> IO a -> IO (Maybe a)
timeout = System.Timeout.timeout . fromInteger
