{-# LANGUAGE TemplateHaskell #-}

module Main (main) where

import Language.Haskell.TH.Syntax (runIO)

main :: IO ()
main = $(runIO (writeFile "ran-by-the-translator" "") >> [| putStrLn "x" |])
