-- | A time limit round an action whose handler takes every exception: the limit's too, so it never comes.
module Main (main) where

import Control.Concurrent
import Control.Exception
import System.Timeout

careless, careful :: IO () -> IO ()
careless act = act `catch` \e -> putStrLn (const "the handler took it" (e :: SomeException))
careful act = act `catch` \(ErrorCall text) -> putStrLn text

-- ! sometimes output has "the handler took it"
main :: IO ()
main = do
  first <- timeout 1000 (careless (threadDelay 100000))
  second <- timeout 1000 (careful (threadDelay 100000))
  putStrLn (maybe "limit" (const "done") first ++ ", " ++ maybe "limit" (const "done") second)
