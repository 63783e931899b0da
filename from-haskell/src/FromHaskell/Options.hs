-- |
-- Module      : FromHaskell.Options
-- Description : The words of the command line
module FromHaskell.Options
  ( Options (..)
  , readOptions
  , usage
  ) where

import Data.List (isPrefixOf)

-- | What the words ask.
data Options = Options
  { optionFile :: FilePath
  , optionMain :: String
  , optionFolders :: [FilePath]
  , optionStrict :: Bool
  , optionTrust :: Bool
  , optionPrelude :: Maybe FilePath
  , optionFiles :: Maybe FilePath   -- ^ where the files are told that decide what the modules are
  , optionEach :: Maybe String      -- ^ each action whose name begins so is asked, in place of one
  , optionExports :: Bool           -- ^ what the module exports is told, in place of a script
  }
  deriving (Eq, Show)

-- | The options, or what is wrong with the words. Options stand before or behind the file, and @--@ ends them.
readOptions :: [String] -> Either String Options
readOptions = go (Options "" "main" [] False False Nothing Nothing Nothing False)
 where
  go options arguments = case arguments of
    [] | null (optionFile options) -> Left "no file"
       | otherwise -> Right options
    ["--", file] -> file `asFileOf` options >>= \o -> go o []
    "--strict" : rest -> go options {optionStrict = True} rest
    "--trust" : rest -> go options {optionTrust = True} rest
    "--main" : name : rest -> go options {optionMain = name} rest
    "--prelude" : folder : rest -> go options {optionPrelude = Just folder} rest
    "--each" : beginning : rest -> go options {optionEach = Just beginning} rest
    "--exports" : rest -> go options {optionExports = True} rest
    "--files" : file : rest -> go options {optionFiles = Just file} rest
    word : rest
      | "--main=" `isPrefixOf` word -> go options {optionMain = drop 7 word} rest
      | "-i" `isPrefixOf` word, length word > 2 -> go options {optionFolders = optionFolders options ++ folders (drop 2 word)} rest
      | "-" `isPrefixOf` word -> Left ("the option " ++ word ++ " isn't known")
      | otherwise -> word `asFileOf` options >>= \o -> go o rest
  asFileOf file options
    | null (optionFile options) = Right options {optionFile = file}
    | otherwise = Left "there are two files"
  folders s = case break (== ':') s of
    (a, _ : rest) -> a : folders rest
    (a, []) -> [a]

-- | The help page.
usage :: String
usage =
  unlines
    [ "usage: from-haskell [--main NAME] [-iDIR[:DIR]] [--strict] [--trust] FILE.hs"
    , ""
    , "Writes the script of the action NAME (main, where none is named) of a Haskell module to standard output, and notes"
    , "and refusals to standard error."
    , ""
    , "  --main NAME   an action of type IO () that the module exports"
    , "  -iDIR         looks for modules in DIR too"
    , "  --strict      takes evaluations that Haskell may leave out, with a note"
    , "  --trust       loads the modules without a look at what they make GHC run"
    , "  --files FILE  writes to FILE the names of all files that decide what the modules are, each before a NUL"
    , "  --each BEGIN  translates each action whose name begins so; a line === NAME STATUS stands above each script or refusal"
    , "  --exports     writes what the module exports, with places and types, as JSON"
    , ""
    , "Status: 0 the script is written; 2 the words, or no such action; 3 refused; 8 it can't be written; 66 the file can't be read; 70 no GHC 9.0.2."
    ]
