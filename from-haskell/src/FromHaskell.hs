-- |
-- Module      : FromHaskell
-- Description : A Haskell module as a script
--
-- GHC parses, checks and desugars a module; a partial evaluator over its Core leaves a first-order script of the language
-- of @docs/LANGUAGE.md@, whose outcomes can be listed.
module FromHaskell
  ( Request (..)
  , Answer (..)
  , translate
  , translateEach
  , exportsOf
  ) where

import qualified Control.Exception as Exception
import Control.Monad (forM_, join, when)
import Control.Monad.IO.Class (liftIO)
import Data.IORef (IORef, newIORef, readIORef)
import Data.List (find, isPrefixOf)
import qualified Data.Map.Strict as Map
import qualified Data.Set as Set
import System.FilePath ((</>))

import FromHaskell.Claims
import FromHaskell.Encode (ioResult)
import FromHaskell.Exports (writeExports)
import FromHaskell.Finish (finish)
import FromHaskell.Ghc
import FromHaskell.Integers (integerNames)
import FromHaskell.Keep (inRounds)
import FromHaskell.Monad
import FromHaskell.Report
import FromHaskell.Safety (checkModules, inspectFile, readSource)
import FromHaskell.Specialise (isPreludeFile, specialise)
import FromHaskell.Value

-- | What is asked.
data Request = Request
  { requestFile :: FilePath
  , requestMain :: String          -- ^ the action that is asked
  , requestFolders :: [FilePath]   -- ^ where modules are looked for, as GHC's @-i@
  , requestStrict :: Bool
  , requestTrust :: Bool
  , requestLibrary :: FilePath     -- ^ GHC's folder of libraries
  , requestPrelude :: FilePath     -- ^ the folder of the prelude
  }

-- | What came of it, with the notes that were made.
data Answer
  = Translated [Note] [FilePath] String
    -- ^ the script, and the files that decide what the modules are, where they were looked at
  | Refused [Note] Refusal
  | NotCompiled                    -- ^ GHC has told why
  | NoSuchMain String              -- ^ the module exports no such action of the type IO ()

-- | Translates a module.
translate :: Request -> IO Answer
translate request = do
  current <- newWorld (Settings (requestStrict request)) >>= newIORef
  result <- Exception.try (withGhc (requestLibrary request) (translateIn current request))
  notes <- reverse <$> (readIORef current >>= readIORef . worldNotes)
  return $ case result of
    Left refusal -> Refused notes refusal
    Right answer -> case answer of
      Translated _ files script -> Translated notes files script
      _ -> answer

translateIn :: IORef World -> Request -> Ghc Answer
translateIn current request = do
  when (requestTrust request) (liftIO (readIORef current >>= (`runTranslate` trusted)))
  found <- modulesOf request
  case found of
    Nothing -> return NotCompiled
    Just (files, modules) -> do
      claims <- claimsIn modules
      liftIO (inRounds current (translateModules request files claims modules))
 where
  trusted = noteAt (Place (requestFile request) 1 1) NoteTrust "What the modules make GHC run isn't looked at."
  claimsIn modules = do
    source <- liftIO (readSource (requestFile request))
    inspection <- quietly (inspectFile (requestFile request) source)
    return $ case inspection of
      Just i -> claimsAbout (requestMain request) (actionsOf modules) (inspectedComments i) (inspectedExtents i) source
      Nothing -> []
  actionsOf modules = Set.fromList (concat [map (occurrence . fst) (filter (isAction . fst) (concatMap pairsOf (compiledBindings m))) | m <- modules, compiledFile m == requestFile request])

-- | Looks at the modules and compiles them. Answers the files that decide what they are, and the modules; nothing where GHC has
-- told a fault.
modulesOf :: Request -> Ghc (Maybe ([FilePath], [Compiled]))
modulesOf request = do
  checked <- looked request
  case checked of
    Nothing -> return Nothing
    Just files -> fmap (\modules -> (files, modules)) . join <$> guarded (compile (targetOf request))

-- | Makes the session one for the modules, and looks at what they make GHC run, unless they are trusted.
looked :: Request -> Ghc (Maybe [FilePath])
looked request = do
  prepare (targetOf request)
  if requestTrust request
    then return (Just [])
    else fmap Set.toList <$> guarded (checkModules (requestFile request) (requestFolders request))

targetOf :: Request -> Target
targetOf request = Target [requestFile request, requestPrelude request </> "FromHaskellPrelude.hs"] (requestFolders request) (requestPrelude request)

-- | Translates each action that the module exports under a name with this beginning, in one session of GHC, and hands each
-- answer on as it comes. Answers why none could be asked, if none could.
translateEach :: Request -> String -> (String -> Answer -> IO ()) -> IO (Maybe Answer)
translateEach request beginning use = either (Just . Refused []) id <$> Exception.try (withGhc (requestLibrary request) each)
 where
  each = do
    found <- modulesOf request
    case found of
      Nothing -> return (Just NotCompiled)
      Just (files, modules) -> do
        liftIO (forM_ (names modules) (\name -> answerTo files modules name >>= use name))
        return Nothing
  names modules = [name | m <- modules, compiledFile m == requestFile request, name <- compiledExports m, beginning `isPrefixOf` name]
  answerTo files modules name = do
    current <- newWorld (Settings (requestStrict request)) >>= newIORef
    result <- Exception.try (inRounds current (translateModules request {requestMain = name} files [] modules))
    notes <- reverse <$> (readIORef current >>= readIORef . worldNotes)
    return $ case result of
      Left refusal -> Refused notes refusal
      Right (Translated _ _ script) -> Translated notes files script
      Right other -> other

-- | What the module exports, as JSON. Where it can't be told, the answer of a translation says why.
exportsOf :: Request -> IO (Either Answer String)
exportsOf request = either (Left . Refused []) id <$> Exception.try (withGhc (requestLibrary request) told)
 where
  told = do
    checked <- looked request
    found <- maybe (return Nothing) (const (join <$> guarded (exports (targetOf request)))) checked
    source <- liftIO (readSource (requestFile request))
    inspection <- quietly (inspectFile (requestFile request) source)
    return (maybe (Left NotCompiled) (Right . writeExports (maybe [] inspectedComments inspection) source) found)

translateModules :: Request -> [FilePath] -> [Claim] -> [Compiled] -> Translate Answer
translateModules request files claims modules = do
  forM_ modules readModule
  prelude <- get worldPrelude
  forM_ (words "constructorTrue constructorFalse constructorUnit constructorNothing constructorJust") $ \name ->
    mapM_ (learnConstructor . functionBody) (Map.lookup name prelude)
  put worldFunctions (Set.fromList integerNames)
  case find ((== requestFile request) . compiledFile) modules >>= entryOf of
    Nothing -> return (NoSuchMain (requestMain request))
    Just v -> do
      program <- get worldProgram
      case lookupVarEnv program v of
        Nothing -> return (NoSuchMain (requestMain request))
        Just f -> do
          mapM_ (put worldEntry) (definedAt v)
          (name, _, _) <- specialise f [] (idType v) True
          Translated [] files <$> finish name claims
 where
  entryOf m
    | requestMain request `elem` compiledExports m || isMain m = find isEntry (concatMap (map fst . pairsOf) (compiledBindings m))
    | otherwise = Nothing
  isMain m = compiledModule m == "Main" && requestMain request == "main"
  isEntry v = occurrence v == requestMain request && isAction v

-- | Whether the name has the type IO ().
isAction :: Id -> Bool
isAction v = maybe False ((== "()") . showType) (ioResult (idType v))

pairsOf :: CoreBind -> [(Id, CoreExpr)]
pairsOf b = flattenBinds [b]

-- | The functions of a module, by their names.
readModule :: Compiled -> Translate ()
readModule m = forM_ (compiledBindings m) $ \binding -> forM_ (pairsOf binding) $ \(v, body) -> do
  let isPrelude = isPreludeFile (compiledFile m)
      f = Function v body emptyEnvironment (isGroup binding) [] (not isPrelude && isFromSource v)
  modify worldProgram (\known -> extendVarEnv known v f)
  when isPrelude $ modify worldPrelude (Map.insert (occurrence v) f)
 where
  isGroup binding = case binding of
    Rec _ -> True
    NonRec _ _ -> False
  isFromSource v = maybe False (const (take 1 (occurrence v) /= "$")) (definedAt v)

-- | A constructor that the prelude names for the evaluator.
learnConstructor :: CoreExpr -> Translate ()
learnConstructor e = case e of
  Tick _ x -> learnConstructor x
  Lam _ x -> learnConstructor x
  App x _ -> learnConstructor x
  Var v | Just dc <- isDataConId_maybe v -> modify worldConstructors (Map.insert (occurrence dc) dc)
  _ -> return ()
