module Main (main) where

import GHC.Conc

main :: IO ()
main = do
  v <- newTVarIO (0 :: Int)
  atomically (writeTVar v 1)
