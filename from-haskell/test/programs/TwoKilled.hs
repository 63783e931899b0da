module Main (main) where

import Control.Concurrent
import Control.Monad

main :: IO ()
main = do
  cells <- replicateM 2 (newMVar False)
  threads <- mapM (\c -> forkIO (modifyMVar_ c (return . not))) cells
  mapM_ killThread threads
  flags <- mapM readMVar cells
  putStrLn (concatMap (\b -> if b then "1" else "0") flags)
