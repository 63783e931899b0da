module Main (main) where

import Control.Concurrent

data Tree = Leaf | Node Tree Int Tree

main :: IO ()
main = do
  v <- newMVar (Node Leaf 1 Leaf)
  t <- takeMVar v
  case t of
    Leaf -> putStrLn "leaf"
    Node _ n _ -> print n
