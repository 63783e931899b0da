module Main (main) where

import Control.Concurrent
import Control.Monad

-- A value that is made once, by whoever comes first.
data Once a = Once (MVar (Maybe a)) (IO a)

get :: Once a -> IO a
get (Once cell make) = modifyMVar cell $ \known -> case known of
  Just x -> return (known, x)
  Nothing -> do
    x <- make
    return (Just x, x)

main :: IO ()
main = do
  cell <- newMVar Nothing
  made <- newMVar (0 :: Int)
  let once = Once cell (modifyMVar made (\n -> putStr "m" >> return (n + 1, n + 10)))
  done <- newEmptyMVar
  forM_ "ab" $ \c -> forkIO (get once >>= \n -> putStr (c : show n) >> putMVar done ())
  replicateM_ 2 (takeMVar done)
  putStrLn "."
