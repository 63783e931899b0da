module Main (main) where

import Control.Concurrent
import Control.Monad

newtype Action a = Action {perform :: MVar Int -> IO (Either String a)}

instance Functor Action where
  fmap = liftM

instance Applicative Action where
  pure x = Action (\_ -> return (Right x))
  (<*>) = ap

instance Monad Action where
  Action m >>= k = Action (\r -> m r >>= either (return . Left) (\x -> perform (k x) r))

tick :: Int -> Action Int
tick n = Action (\r -> modifyMVar r (\x -> return (x + n, Right (x + n))))

check :: Bool -> String -> Action ()
check ok s = unless ok (Action (\_ -> return (Left s)))

main :: IO ()
main = do
  r <- newMVar 0
  a <- perform (do { x <- tick 2; check (x < 5) "big"; y <- tick 4; check (y < 5) "bigger"; return (x + y) }) r
  putStrLn (either ("no: " ++) show a)
