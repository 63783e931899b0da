module Main (main) where

import Control.Concurrent
import Data.Word

main :: IO ()
main = do
  v <- newMVar (250 :: Word8)
  modifyMVar_ v (return . (+ 10))
  readMVar v >>= print
