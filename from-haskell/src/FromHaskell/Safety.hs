-- |
-- Module      : FromHaskell.Safety
-- Description : What a module may ask of GHC
--
-- GHC can be made to run programs while it only reads a module: by Template Haskell, by plugins, by a preprocessor of
-- one's own. So each module is looked at before any is loaded, its header first, and is refused where it asks for more
-- than a list of harmless things.
module FromHaskell.Safety
  ( checkModules
  , inspectFile
  , readSource
  , refusedOption
  , includesOf
  , unlit
  ) where

import qualified Control.Exception as Exception
import Control.Monad (filterM, foldM, forM_)
import Control.Monad.IO.Class (liftIO)
import Data.Char (isSpace)
import Data.List (isInfixOf, isPrefixOf, isSuffixOf, tails)
import qualified Data.Set as Set
import System.Directory (doesFileExist, getTemporaryDirectory, removeFile)
import System.FilePath (isAbsolute, splitDirectories, takeDirectory, takeExtension, (<.>), (</>))
import System.IO

import FromHaskell.Ghc
import FromHaskell.Report

-- | Looks at the module of this file and at all that it imports from these folders. Answers the files that decide what the
-- modules are: those that were read, and those that would be read if they were there.
checkModules :: FilePath -> [FilePath] -> Ghc (Set.Set FilePath)
checkModules file folders = seenFiles <$> checkFrom (searched file folders) (Seen Set.empty Set.empty) file

-- | The folders in which a file is looked for.
searched :: FilePath -> [FilePath] -> [FilePath]
searched file folders = "." : takeDirectory file : folders

-- | The modules that were looked at, and all files that decide what they are.
data Seen = Seen
  { seenModules :: Set.Set FilePath
  , seenFiles :: Set.Set FilePath
  }

checkFrom :: [FilePath] -> Seen -> FilePath -> Ghc Seen
checkFrom folders seen file
  | file `Set.member` seenModules seen = return seen
  | otherwise = do
      source <- liftIO (readSource file)
      options <- headerOptions file source
      liftIO (checkOptions options)
      included <- liftIO (checkIncludes file folders source)
      inspection <- inspectFile file source
      liftIO (checkOptions (inspectedOptions inspection))
      forM_ (inspectedDeclarations inspection) $ \(place, what) -> liftIO (refuseUnsafe place ("There is " ++ what ++ "."))
      let possible = concatMap (candidates folders) (inspectedImports inspection)
      imported <- liftIO (filterM doesFileExist possible)
      foldM (checkFrom folders) (Seen (Set.insert file (seenModules seen)) (Set.unions [Set.fromList (file : possible), included, seenFiles seen])) imported

-- | What a module says before it is loaded.
inspectFile :: FilePath -> String -> Ghc Inspection
inspectFile file source = inspect file source throughFile

refuseUnsafe :: Place -> String -> IO a
refuseUnsafe place detail = Exception.throwIO (Refusal place CauseUnsafe detail)

-- | The files that may be the module of this name.
candidates :: [FilePath] -> String -> [FilePath]
candidates folders name = [normal (folder </> path <.> extension) | folder <- folders, extension <- ["hs", "lhs", "hs-boot", "lhs-boot"]]
 where
  path = map (\c -> if c == '.' then '/' else c) name
  normal p = if "./" `isPrefixOf` p then drop 2 p else p

-- | The text of a source file; of a literate one the lines of the program.
readSource :: FilePath -> IO String
readSource file = do
  handle <- openFile file ReadMode
  encoding <- mkTextEncoding "UTF-8//ROUNDTRIP"
  hSetEncoding handle encoding
  source <- hGetContents handle
  _ <- Exception.evaluate (length source)
  hClose handle
  return (if ".lhs" `isPrefixOf` takeExtension file then unlit source else source)

-- | The program of a literate text, each line at its place.
unlit :: String -> String
unlit = unlines . go False . lines
 where
  go _ [] = []
  go inside (l : rest)
    | "\\begin{code}" `isPrefixOf` l = "" : go True rest
    | "\\end{code}" `isPrefixOf` l = "" : go False rest
    | inside = l : go True rest
    | ">" `isPrefixOf` l = (' ' : drop 1 l) : go False rest
    | otherwise = "" : go False rest

-- | What the preprocessor leaves of a file. It goes through a file of its own, which is removed.
throughFile :: (FilePath -> IO ()) -> IO String
throughFile make = do
  folder <- getTemporaryDirectory
  Exception.bracket (openTempFile folder "from-haskell.hs") (removeFile . fst) $ \(path, handle) -> do
    hClose handle
    make path
    readSource path

checkOptions :: [(Place, String)] -> IO ()
checkOptions options = case options of
  [] -> return ()
  (_, "-haddock-opts") : _ : rest -> checkOptions rest
  (place, option) : rest -> do
    forM_ (refusedOption option) (refuseUnsafe place)
    checkOptions rest

-- | Why an option of a module's header is refused, if it is.
refusedOption :: String -> Maybe String
refusedOption option
  | Just name <- extensionOf option =
      if name `elem` refusedExtensions then Just ("The language extension " ++ name ++ " is on.") else Nothing
  | option `elem` harmless || any (`isPrefixOf` option) harmlessBeginnings = Nothing
  | otherwise = Just ("The option " ++ option ++ " isn't one of those that are known to be harmless.")
 where
  extensionOf o = if "-X" `isPrefixOf` o then Just (drop 2 o) else Nothing
  refusedExtensions = words "TemplateHaskell TemplateHaskellQuotes QuasiQuotes CApiFFI JavaScriptFFI GHCForeignImportPrim StaticPointers"
  harmless = words "-w -O -O0 -O1 -O2 -cpp -haddock -threaded -rtsopts -funbox-strict-fields -fno-cse -fno-full-laziness -fno-omit-yields -fno-strictness -fexpose-all-unfoldings -fno-ignore-asserts -fno-state-hack"
  harmlessBeginnings = ["-W", "-fwarn-", "-fno-warn-", "-fspec-constr", "-fno-spec-constr"]

-- | Files that a module includes must lie in its own folders, and are looked at as it is. Answers all that may be meant.
checkIncludes :: FilePath -> [FilePath] -> String -> IO (Set.Set FilePath)
checkIncludes file folders = go Set.empty file
 where
  go seen path textOf = foldM (include path) seen (includesOf textOf)
  include path seen (line, included) = case included of
    Just name | name `elem` ofGhc -> return seen
    Just name | isInside name -> do
      let possible = [folder </> name | folder <- takeDirectory path : folders]
      found <- filterM doesFileExist possible
      let now = Set.union (Set.fromList possible) seen
      foldM (\s inner -> if inner `Set.member` seen then return s else readSource inner >>= go s inner) now (take 1 found)
    _ -> refuseUnsafe (Place path line 1) "A file is included that isn't named as one below the folders of the modules."
  isInside name = not (isAbsolute name) && ".." `notElem` splitDirectories name
  ofGhc = ["MachDeps.h", "ghcversion.h", "HsBaseConfig.h"]

-- | The lines of a text at which the preprocessor may include a file, each with the file where it is named.
includesOf :: String -> [(Int, Maybe String)]
includesOf source = [(n, named after) | (n, l) <- zip [1 ..] (joinedLines (lines source)), after <- directives l]
 where
  directives l = take 1 [rest | '#' : t <- tails l, word <- ["include_next", "include", "import"], Just rest <- [behind word (dropWhile isSpace t)]]
  behind word t = if word `isPrefixOf` t then Just (drop (length word) t) else Nothing
  named t = case dropWhile isSpace t of
    '"' : rest -> Just (takeWhile (/= '"') rest)
    '<' : rest -> Just (takeWhile (/= '>') rest)
    _ -> Nothing
  -- A backslash joins a line with the next, whose place stays free.
  joinedLines ls = case ls of
    a : b : rest | "\\" `isSuffixOf` a, "#" `isInfixOf` a -> "" : joinedLines ((init a ++ b) : rest)
    a : rest -> a : joinedLines rest
    [] -> []
