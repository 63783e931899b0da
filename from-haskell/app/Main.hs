-- |
-- The executable: reads the words of the command line, looks for GHC, and writes the script.
module Main (main) where

import qualified Control.Exception as Exception
import Control.Monad (unless)
import System.Environment (getArgs)
import System.Exit
import System.IO
import System.Process (readProcess)

import FromHaskell
import FromHaskell.Ghc (libraryVersion, signalIn)
import FromHaskell.Options
import FromHaskell.Report
import Paths_from_haskell (getDataDir)

main :: IO ()
main = do
  mapM_ (`hSetEncoding` utf8) [stdout, stderr]
  arguments <- getArgs
  case arguments of
    ["--help"] -> putStr usage
    _ -> either wrongWords run (readOptions arguments)

wrongWords :: String -> IO a
wrongWords why = do
  hPutStrLn stderr ("from-haskell: " ++ why)
  hPutStr stderr usage
  exitWith (ExitFailure 2)

run :: Options -> IO ()
run options = do
  checkReadable (optionFile options)
  library <- findGhc
  prelude <- maybe ((++ "/prelude") <$> getDataDir) return (optionPrelude options)
  let request =
        Request
          { requestFile = optionFile options
          , requestMain = optionMain options
          , requestFolders = optionFolders options
          , requestStrict = optionStrict options
          , requestTrust = optionTrust options
          , requestLibrary = library
          , requestPrelude = prelude
          }
      recovered = (`Exception.catch` failed (optionFile options))
  case optionEach options of
    Just beginning -> translateEach request beginning tellOne >>= mapM_ (tell beginning)
    Nothing | optionExports options -> do
      found <- exportsOf request
      either (tell "") putWritten found
    Nothing -> do
      answer <- recovered (translate request)
      maybe (return ()) (tellFiles answer) (optionFiles options)
      tell (optionMain options) answer

-- | Writes what came of one action among several, below a line with its name and the status that it would have alone.
tellOne :: String -> Answer -> IO ()
tellOne name answer = do
  putWritten $ case answer of
    Translated _ _ script -> heading 0 ++ script
    Refused _ refusal -> heading 3 ++ renderRefusal refusal
    NotCompiled -> heading 3
    NoSuchMain _ -> heading 2
 where
  heading status = "=== " ++ name ++ " " ++ show (status :: Int) ++ "\n"

putWritten :: String -> IO ()
putWritten s = (putStr s >> hFlush stdout) `Exception.catch` unwritten

-- | Writes the names of the files that a script was made of.
tellFiles :: Answer -> FilePath -> IO ()
tellFiles answer target = case answer of
  Translated _ files _ -> withFile target WriteMode $ \handle -> do
    mkTextEncoding "UTF-8//ROUNDTRIP" >>= hSetEncoding handle
    mapM_ (\file -> hPutStr handle (file ++ "\0")) files
  _ -> return ()

-- | Writes what came of it, and ends with its status.
tell :: String -> Answer -> IO ()
tell name answer = case answer of
  Translated notes _ script -> do
    mapM_ (hPutStr stderr . renderNote) notes
    putWritten script
  Refused notes refusal -> do
    mapM_ (hPutStr stderr . renderNote) notes
    hPutStr stderr (renderRefusal refusal)
    exitWith (ExitFailure 3)
  NotCompiled -> exitWith (ExitFailure 3)
  NoSuchMain _ -> do
    hPutStrLn stderr ("from-haskell: the module exports no action " ++ name ++ " of type IO ()")
    exitWith (ExitFailure 2)

unwritten :: IOError -> IO a
unwritten e = do
  hPutStrLn stderr ("from-haskell: the script can't be written: " ++ show e)
  -- What is left in the buffer would fail again at the end.
  hClose stdout `Exception.catch` (const (return ()) :: IOError -> IO ())
  exitWith (ExitFailure 8)

checkReadable :: FilePath -> IO ()
checkReadable file = do
  opened <- Exception.try (withFile file ReadMode (const (return ()))) :: IO (Either IOError ())
  case opened of
    Right () -> return ()
    Left _ -> do
      hPutStrLn stderr ("from-haskell: " ++ file ++ " can't be read")
      exitWith (ExitFailure 66)

-- | GHC's folder of libraries.
findGhc :: IO FilePath
findGhc = do
  version <- asked "--numeric-version"
  unless (version == Just libraryVersion) $ do
    hPutStrLn stderr $ case version of
      Nothing -> "from-haskell: there is no ghc; on Debian 12, apt-get install ghc"
      Just other -> "from-haskell: ghc is " ++ other ++ ", and this needs " ++ libraryVersion ++ " (that of Debian 12)"
    exitWith (ExitFailure 70)
  library <- asked "--print-libdir"
  maybe (exitWith (ExitFailure 70)) return library
 where
  asked option = do
    answer <- Exception.try (readProcess "ghc" [option] "") :: IO (Either IOError String)
    return (either (const Nothing) (Just . takeWhile (/= '\n')) answer)

-- | A failure that isn't a refusal: GHC's own words where it has some.
failed :: FilePath -> Exception.SomeException -> IO Answer
failed _ e | Just n <- signalIn e = exitWith (ExitFailure (128 + n))
failed file e = case Exception.fromException e of
  Just asynchronous -> Exception.throwIO (asynchronous :: Exception.SomeAsyncException)
  Nothing -> return (Refused [] (Refusal (Place file 1 1) CauseEvaluator (concatMap oneLine (show e))))
 where
  oneLine c = if c == '\n' then "\n    " else [c]
