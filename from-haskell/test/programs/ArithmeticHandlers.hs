module Main (main) where

import Control.Exception

classify :: Int -> Int -> IO String
classify a b = do
  r <- try (evaluate (a `div` b))
  return $ case r of
    Left DivideByZero -> "zero"
    Left Overflow -> "overflow"
    Left _ -> "other"
    Right n -> show n

main :: IO ()
main = mapM_ (\b -> classify 12 b >>= putStrLn) [3, 0, -1]
