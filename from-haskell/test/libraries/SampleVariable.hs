-- | Library: SafeSemaphore. A reader of a sample variable is killed; later values still come.
module Main (main) where

import Control.Concurrent
import qualified Control.Concurrent.MSampleVar as Sample

main :: IO ()
main = do
  sample <- Sample.newEmptySV
  reader <- forkIO (Sample.readSV sample >>= print)
  Sample.writeSV sample (1 :: Int)
  killThread reader
  Sample.writeSV sample 2
  Sample.readSV sample >>= print
