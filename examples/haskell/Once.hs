-- | A value that is made once: the cell is held while it is made.
module Main (main) where

import Control.Concurrent
import Control.Monad

once :: MVar (Maybe Int) -> IO Int -> IO Int
once cell make = modifyMVar cell $ \known -> case known of
  Just value -> return (known, value)
  Nothing -> do
    value <- make
    return (Just value, value)

-- ! always done and output has "made"
-- ! never output has "mademade"
main :: IO ()
main = do
  cell <- newMVar Nothing
  done <- newEmptyMVar
  replicateM_ 2 (forkIO (once cell (putStr "made" >> return 3) >>= putMVar done))
  a <- takeMVar done
  b <- takeMVar done
  putStrLn (" " ++ show (a + b))
