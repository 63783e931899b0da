-- | The program of a script's module: runs it many times and prints what it came to.
module Litmus.Main
  ( run
  , runScripts
  )
where

import Control.Concurrent (forkIO, myThreadId, rtsSupportsBoundThreads, setNumCapabilities)
import Control.Concurrent.MVar (newEmptyMVar, putMVar, takeMVar)
import Control.Monad (foldM, forM_, unless, when)
import qualified Data.ByteString as ByteString
import Data.IORef (IORef, newIORef, readIORef, writeIORef)
import qualified Data.Map.Strict as Map
import Data.Set (Set)
import qualified Data.Set as Set
import qualified Data.Text as Text
import qualified Data.Text.Encoding as Text
import Data.Word (Word64)
import Foreign.StablePtr (newStablePtr)
import GHC.Clock (getMonotonicTimeNSec)
import Litmus.Actions (forkMain)
import Litmus.Outcome (Counts, Result, counting, listing)
import Litmus.Plan (Place, drawPlan, mix)
import Litmus.Rest (watch)
import Litmus.Run (Env, Forks (..), Run (..), environment, newRun)
import System.Console.GetOpt
import System.Environment (getArgs, getProgName)
import System.Exit (ExitCode (..), exitWith)
import System.IO (hPutStr, hPutStrLn, stderr, stdout)
import Text.Read (readMaybe)

-- | What the options say.
data Settings = Settings
  { settingRuns :: !Int
  , settingSeconds :: !(Maybe Double)
  , settingSeed :: !Word64
  , settingLimit :: !Word64
  , settingCapabilities :: ![Int]
  , settingForks :: !Forks
  , settingScript :: !(Maybe String)
  , settingHelp :: !Bool
  }

defaults :: Settings
defaults = Settings 1000 Nothing 1 5000 [1, 2, 4] Reported Nothing False

options :: [OptDescr (Settings -> Either String Settings)]
options =
  [ valued "runs" "N" "so many runs (else 1000)" (positive (\number settings -> settings {settingRuns = number}))
  , valued "seconds" "S" "no run begins after so many seconds" seconds
  , valued "seed" "S" "where the rows of random numbers begin (else 1)" seed
  , valued "limit" "MS" "a run that isn't over after so many milliseconds has no end (else 5000)" limit
  , valued "caps" "N" "on so many capabilities (else a third of the runs on 1, 2 and 4 each)" (positive capabilities)
  , valued "forks" "F" "reported, or plain: as GHC has it, an exception before a thread's first step is told by nobody" forks
  , valued "script" "NAME" "of several scripts this one" (\name settings -> Right settings {settingScript = Just name})
  , Option "h" ["help"] (NoArg (\settings -> Right settings {settingHelp = True})) "shows this"
  ]
  where
    valued name value help use = Option [] [name] (ReqArg use value) help
    positive use word settings = case readMaybe word of
      Just number | number > 0 -> Right (use number settings)
      _ -> Left ("not a number above 0: " ++ word)
    limit = positive (\number settings -> settings {settingLimit = fromIntegral (number :: Int)})
    capabilities number settings = settings {settingCapabilities = [number]}
    seconds word settings = case readMaybe word of
      Just number | number > 0 -> Right settings {settingSeconds = Just number}
      _ -> Left ("not a number of seconds: " ++ word)
    seed word settings = case readMaybe word of
      Just number | number >= 0 -> Right settings {settingSeed = fromInteger number}
      _ -> Left ("not a number: " ++ word)
    forks word settings = case word of
      "reported" -> Right settings {settingForks = Reported}
      "plain" -> Right settings {settingForks = Plain}
      _ -> Left ("neither reported nor plain: " ++ word)

-- | Runs a script as the options of the command line say, and prints its outcomes.
run :: (Env -> IO ()) -> IO ()
run script = runScripts [("", script)]

-- | The same of several scripts, by their names.
runScripts :: [(String, Env -> IO ())] -> IO ()
runScripts scripts = do
  arguments <- getArgs
  settings <- either refuse return (settingsOf arguments)
  when (settingHelp settings) (usage >>= putStr >> exitWith ExitSuccess)
  unless rtsSupportsBoundThreads (refuse "the program has to be linked with -threaded")
  let chosen = [script | script@(name, _) <- scripts, maybe True (== name) (settingScript settings)]
  when (null chosen) (refuse "there is no such script")
  over <- newEmptyMVar
  -- Not the thread of main itself, which is bound and so is slow to change to.
  _ <- forkIO (runAll settings chosen >> putMVar over ())
  _ <- newStablePtr over
  takeMVar over
  where
    refuse line = do
      help <- usage
      hPutStrLn stderr line
      hPutStr stderr help
      exitWith (ExitFailure 2)

usage :: IO String
usage = do
  name <- getProgName
  return (usageInfo ("Usage: " ++ name ++ " [OPTION..]") options)

settingsOf :: [String] -> Either String Settings
settingsOf arguments = case getOpt Permute options arguments of
  (changes, [], []) -> foldM (flip ($)) defaults changes
  (_, word : _, _) -> Left ("no option: " ++ word)
  (_, _, faults) -> Left (concat faults)

-- | Runs each script and prints its outcomes, below its name where there are several.
runAll :: Settings -> [(String, Env -> IO ())] -> IO ()
runAll settings scripts = do
  -- The harness itself is never told that it waits for ever, and is never let go of.
  _ <- newStablePtr =<< myThreadId
  current <- newIORef Nothing
  watcher <- forkIO (watch (settingLimit settings) current)
  _ <- newStablePtr watcher
  _ <- newStablePtr current
  forM_ scripts $ \(name, script) -> do
    counts <- runScript settings current script
    let title = if length scripts > 1 then Text.pack ("script " ++ name ++ "\n") else Text.empty
    ByteString.hPut stdout (Text.encodeUtf8 (title <> listing counts))

-- | Runs a script on each number of capabilities in turn, with an equal share of runs and time.
runScript :: Settings -> IORef (Maybe Run) -> (Env -> IO ()) -> IO Counts
runScript settings current script = do
  places <- newIORef Set.empty
  let shares = length (settingCapabilities settings)
      share number = (settingRuns settings + number) `div` shares
  parts <- sequence
    [ do
        setNumCapabilities capabilities
        begin <- getMonotonicTimeNSec
        let time = fmap (\seconds -> begin + round (seconds * 1e9 / fromIntegral shares)) (settingSeconds settings)
        runTimes settings current places script (share number) time (fromIntegral number)
    | (number, capabilities) <- zip [0 ..] (settingCapabilities settings)
    ]
  return (Map.unionsWith (+) parts)

-- | Runs a script so often, or until this time.
runTimes :: Settings -> IORef (Maybe Run) -> IORef (Set Place) -> (Env -> IO ()) -> Int -> Maybe Word64 -> Word64 -> IO Counts
runTimes settings current places script runs time part = go 0 Map.empty
  where
    go count counts = do
      now <- getMonotonicTimeNSec
      if count >= runs || maybe False (now >) time
        then return counts
        else do
          let seed = mix (mix (settingSeed settings * 4 + part) + fromIntegral count)
          result <- runOnce settings current places script seed
          let more = counting result counts
          more `seq` go (count + 1) more

runOnce :: Settings -> IORef (Maybe Run) -> IORef (Set Place) -> (Env -> IO ()) -> Word64 -> IO Result
runOnce settings current places script seed = do
  known <- readIORef places
  this <- newRun (settingForks settings) places (drawPlan seed known)
  env <- environment this seed 0
  writeIORef current (Just this)
  forkMain env script
  result <- takeMVar (runResult this)
  writeIORef current Nothing
  writeIORef (runHeld this) []
  return result
