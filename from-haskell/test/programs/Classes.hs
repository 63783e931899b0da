module Main (main) where

import Control.Concurrent

data Shape = Circle {radius :: Int} | Rectangle {width, height :: Int} | Dot
  deriving (Eq, Show)

class Area a where
  area :: a -> Int
  label :: a -> String
  label _ = "thing"

instance Area Shape where
  area (Circle r) = 3 * r * r
  area (Rectangle w h) = w * h
  area Dot = 0

grow :: Shape -> Shape
grow s = case s of
  Circle r -> Circle (r + 1)
  Rectangle w h -> Rectangle (w + 1) h
  Dot -> Circle 0

main :: IO ()
main = do
  s <- newMVar Dot
  done <- newEmptyMVar
  _ <- forkIO (modifyMVar_ s (return . grow) >> putMVar done ())
  modifyMVar_ s (return . grow)
  now <- readMVar s
  takeMVar done
  later <- readMVar s
  putStrLn (label now ++ show (area now) ++ show later ++ show (now == later))
