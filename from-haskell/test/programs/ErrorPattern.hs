module Main (main) where

import Control.Exception

-- The text of `error` is matched, and not shown, so it has no call stack.
main :: IO ()
main = handle (\(ErrorCall s) -> putStrLn ("caught " ++ s)) (error "oh" >> putStrLn "no")
