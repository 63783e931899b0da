{-# LANGUAGE ExistentialQuantification #-}

module Main (main) where

import Control.Concurrent

data Job = forall a. Show a => Job String (IO a)

main :: IO ()
main = do
  v <- newMVar (1 :: Int)
  _ <- forkIO (modifyMVar_ v (return . (+ 1)))
  mapM_ (\(Job name act) -> act >>= \r -> putStrLn (name ++ "=" ++ show r)) [Job "v" (readMVar v), Job "w" (return True)]
