-- | A region that one thread at a time is in. Who is killed while he waits for it gives back what another one has.
module RegionWrong (Region, new, enter, leave, within) where

import Control.Concurrent.MVar
import Control.Exception

newtype Region = Region (MVar ())

new :: IO Region
new = Region <$> newMVar ()

enter :: Region -> IO ()
enter (Region cell) = takeMVar cell

leave :: Region -> IO Bool
leave (Region cell) = tryPutMVar cell ()

within :: Region -> IO a -> IO a
within region action = (enter region >> action) `finally` leave region
