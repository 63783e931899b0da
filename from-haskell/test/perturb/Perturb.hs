{-# LANGUAGE PackageImports #-}
{-# LANGUAGE Trustworthy #-}

-- | Random spins and yields in front of an operation, so that other schedules come. Nothing here can be interrupted under
-- a mask.
module Perturb (perturbed) where

import "base" Control.Concurrent (yield)
import Control.Monad (when)
import Data.IORef
import Data.Word (Word64)
import GHC.Clock (getMonotonicTimeNSec)
import System.IO.Unsafe (unsafePerformIO)

{-# NOINLINE seed #-}
seed :: IORef Word64
seed = unsafePerformIO (getMonotonicTimeNSec >>= newIORef)

draw :: IO Word64
draw = atomicModifyIORef' seed (\s -> let t = s * 6364136223846793005 + 1442695040888963407 in (t, t `div` 8589934592))

-- | The action, later.
perturbed :: IO a -> IO a
perturbed act = do
  r <- draw
  case r `mod` 6 of
    0 -> yield
    1 -> spin ((r `div` 16) `mod` 30000)
    2 -> yield >> spin ((r `div` 16) `mod` 200000)
    _ -> return ()
  act

spin :: Word64 -> IO ()
spin nanoseconds = do
  begin <- getMonotonicTimeNSec
  let go = do
        now <- getMonotonicTimeNSec
        when (now - begin < nanoseconds) go
  go
