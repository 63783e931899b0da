-- |
-- Module      : FromHaskell.Ghc
-- Description : What depends on the version of GHC
--
-- All names of the @ghc@ library that the translator uses come from here, so that another version of GHC is a change of
-- this module alone. It is written for GHC 9.0.2.
module FromHaskell.Ghc
  ( -- * Core
    CoreExpr
  , CoreBind
  , CoreAlt
  , Expr (..)
  , Bind (..)
  , AltCon (..)
  , Tickish (..)
  , Unfolding (..)
  , flattenBinds
  , isTypeArg
  , maybeUnfoldingTemplate
  , unfoldingOf
  , freeVariables
  , literalValue
  , LiteralValue (..)
  , Literal

    -- * Names
  , Id
  , Var
  , Unique
  , NamedThing
  , getUnique
  , getKey
  , occurrence
  , moduleOf
  , idType
  , isLocalId
  , isTyVar
  , isDFunId
  , isDataConId_maybe
  , isClassOpId_maybe
  , definedAt
  , spanPlace

    -- * Types
  , Type
  , TyCon
  , DataCon
  , Class
  , TCvSubst
  , emptyTCvSubst
  , extendTvSubst
  , substTyUnchecked
  , substTyWithUnchecked
  , splitTyConApp_maybe
  , splitForAllTy_maybe
  , splitForAllTys
  , splitFunction
  , isTyVarTy
  , isClosed
  , expandTypeSynonyms
  , mkTyVarTy
  , mkTyConTy
  , eqType
  , isAlgTyCon
  , isNewTyCon
  , isClassTyCon
  , isTupleTyCon
  , tyConDataCons
  , tyConClass_maybe
  , unwrapNewtypeOnce
  , isRuntimeRepresentation
  , classAllSelIds
  , classTyVars
  , classTyCon
  , dataConWorkId
  , dataConTyCon
  , dataConTag
  , dataConSourceArity
  , dataConFieldTypes
  , fieldNames
  , dataConUnivTyVars
  , dataConExTyCoVars
  , dataConTheta
  , dataConEqSpec

    -- * Maps by variable
  , VarEnv
  , VarSet
  , emptyVarEnv
  , extendVarEnv
  , lookupVarEnv
  , delVarEnv
  , unionVarSet
  , emptyVarSet
  , variablesInOrder

    -- * Types as they are written
  , TypeShape (..)
  , typeShape

    -- * Text
  , showType

    -- * Modules
  , Compiled (..)
  , Target (..)
  , prepare
  , guarded
  , quietly
  , compile
  , Export (..)
  , exports
  , Inspection (..)
  , Extent (..)
  , inspect
  , headerOptions
  , withGhc
  , Ghc
  , libraryVersion
  , signalIn
  ) where


import qualified Control.Exception as Exception
import Control.Monad.IO.Class (liftIO)
import Data.Graph (flattenSCC)
import Data.List (sortOn)
import Data.Maybe (mapMaybe)
import System.FilePath (takeDirectory)

import GHC
  ( Class
  , DesugaredModule
  , DynFlags (..)
  , Ghc
  , GhcLink (..)
  , GhcMode (..)
  , HscTarget (..)
  , Id
  , LoadHowMuch (..)
  , ModSummary (..)
  , NamedThing (..)
  , SuccessFlag (..)
  , TyCon
  , TypecheckedModule
  , coreModule
  , depanal
  , desugarModule
  , getModuleGraph
  , getSessionDynFlags
  , guessTarget
  , isClassTyCon
  , isNewTyCon
  , load
  , loadModule
  , mgModSummaries
  , modInfoExports
  , moduleInfo
  , moduleName
  , moduleNameString
  , parseDynamicFlags
  , parseModule
  , printException
  , runGhc
  , setSessionDynFlags
  , setTargets
  , topSortModuleGraph
  , tyConDataCons
  , typecheckModule
  )
import qualified GHC
import GHC.Core
import GHC.Core.Class (classAllSelIds, classTyCon, classTyVars)
import GHC.Core.DataCon
import GHC.Core.FVs (exprSomeFreeVars)
import GHC.Core.TyCo.Rep (scaledThing)
import GHC.Core.TyCon (isAlgTyCon, isTupleTyCon, newTyConRhs, tyConClass_maybe)
import GHC.Core.Type hiding (typeKind)
import qualified GHC.Core.Type as Core
import GHC.Data.FastString (mkFastString, unpackFS)
import GHC.Data.StringBuffer (stringToStringBuffer)
import GHC.Driver.Pipeline (doCpp)
import GHC.Driver.Session (GeneralFlag (..), gopt_unset, parseDynamicFilePragma, xopt)
import GHC.Driver.Types (HscSource (..), handleSourceError, mg_binds, throwErrors)
import GHC.Hs
import GHC.LanguageExtensions (Extension (Cpp))
import GHC.Parser.Header (getOptions)
import GHC.Parser.Lexer (ParseResult (..), Token (..), lexTokenStream)
import GHC.Types.Id (idType, isClassOpId_maybe, isDFunId, isDataConId_maybe, isLocalId, realIdUnfolding)
import GHC.Types.Literal (Literal (..))
import GHC.Types.Name (nameModule_maybe, nameOccName, nameSrcSpan, occNameString)
import GHC.Types.Name.Reader (rdrNameOcc)
import GHC.Types.SrcLoc
import GHC.Types.Unique (Unique, getKey, getUnique)
import GHC.Types.Unique.Set (nonDetEltsUniqSet)
import GHC.Tc.Utils.TcType (tcSplitSigmaTy)
import GHC.Types.Var.Env
import GHC.Types.Var.Set
import GHC.Utils.Encoding (utf8DecodeByteString)
import GHC.Utils.Outputable (Outputable, ppr, showSDocUnsafe)
import GHC.Utils.Panic (GhcException (Signal))

import FromHaskell.Report (Place (..))

-- | The version of GHC that this module is written for.
libraryVersion :: String
libraryVersion = "9.0.2"

-- | The signal by which a session of GHC was ended.
signalIn :: Exception.SomeException -> Maybe Int
signalIn e = case Exception.fromException e of
  Just (Signal n) -> Just n
  _ -> Nothing

-- | The unfolding that the interface of the defining module has, or no unfolding.
unfoldingOf :: Id -> Unfolding
unfoldingOf = realIdUnfolding

-- | The variables, also of types, that occur freely and aren't global.
freeVariables :: CoreExpr -> VarSet
freeVariables = exprSomeFreeVars (const True)

-- | A constant of Core.
data LiteralValue
  = LiteralNumber Integer
  | LiteralCharacter Char
  | LiteralText String

-- | The constant, where it is one that a script can have.
literalValue :: Literal -> Maybe LiteralValue
literalValue l = case l of
  LitNumber _ n -> Just (LiteralNumber n)
  LitChar c -> Just (LiteralCharacter c)
  LitString b -> Just (LiteralText (utf8DecodeByteString b))
  _ -> Nothing

-- | The name without its module.
occurrence :: NamedThing a => a -> String
occurrence = occNameString . nameOccName . getName

-- | The module of a global name, or no text.
moduleOf :: NamedThing a => a -> String
moduleOf x = maybe "" (moduleNameString . moduleName) (nameModule_maybe (getName x))

-- | Where the name is defined, if in a source that was read.
definedAt :: NamedThing a => a -> Maybe Place
definedAt x = case nameSrcSpan (getName x) of
  RealSrcSpan s _ -> Just (spanPlace s)
  UnhelpfulSpan _ -> Nothing

-- | The place at which a span begins.
spanPlace :: RealSrcSpan -> Place
spanPlace s = Place (unpackFS (srcSpanFile s)) (srcSpanStartLine s) (srcSpanStartCol s)

-- | Argument and result of a function type.
splitFunction :: Type -> Maybe (Type, Type)
splitFunction t = case splitFunTy_maybe t of
  Just (_, a, r) -> Just (a, r)
  Nothing -> Nothing

-- | Whether no variable is free in the type.
isClosed :: Type -> Bool
isClosed = noFreeVarsOfType

-- | The type that a newtype stands for at these arguments, and nothing where it has too few.
unwrapNewtypeOnce :: TyCon -> [Type] -> Maybe Type
unwrapNewtypeOnce constructor arguments
  | isNewTyCon constructor, length arguments >= length variables =
      let (now, later) = splitAt (length variables) arguments
       in Just (mkAppTys (substTyWith variables now body) later)
  | otherwise = Nothing
 where
  (variables, body) = newTyConRhs constructor

-- | Whether the type says how another is represented.
isRuntimeRepresentation :: Type -> Bool
isRuntimeRepresentation a = case splitTyConApp_maybe (Core.typeKind a) of
  Just (constructor, _) -> occurrence constructor == "RuntimeRep"
  Nothing -> False

-- | The types of a constructor's fields at these arguments of its type, if it binds no types or dictionaries.
dataConFieldTypes :: DataCon -> [Type] -> Maybe [Type]
dataConFieldTypes constructor arguments
  | null (dataConExTyCoVars constructor) && null (dataConTheta constructor) =
      Just (map scaledThing (dataConInstOrigArgTys constructor arguments))
  | otherwise = Nothing

-- | The names of a constructor's fields, if they have names.
fieldNames :: DataCon -> [String]
fieldNames = map (unpackFS . flLabel) . dataConFieldLabels

-- | The variables of a set, in an order that a run keeps.
variablesInOrder :: VarSet -> [Var]
variablesInOrder = sortOn (getKey . getUnique) . nonDetEltsUniqSet

-- | A type or name as GHC prints it.
showType :: Outputable a => a -> String
showType = showSDocUnsafe . ppr

-- | What came of a module.
data Compiled = Compiled
  { compiledModule :: String
  , compiledFile :: FilePath
  , compiledBindings :: [CoreBind]
  , compiledExports :: [String]
  }

-- | What is compiled: the files, where their modules are looked for, and the folder of the prelude.
data Target = Target
  { targetFiles :: [FilePath]
  , targetFolders :: [FilePath]
  , targetPrelude :: FilePath
  }

-- | Runs a session of GHC over the library folder.
withGhc :: FilePath -> Ghc a -> IO a
withGhc libraryFolder = runGhc (Just libraryFolder)

-- | Makes the session one for this target. It reads no package environment and no file of GHCi.
prepare :: Target -> Ghc ()
prepare target = do
  flags <- sessionFlags target
  _ <- setSessionDynFlags flags
  return ()

-- | The answer, or nothing where GHC finds a fault: then it tells it in its own words.
guarded :: Ghc a -> Ghc (Maybe a)
guarded act = handleSourceError (\e -> printException e >> return Nothing) (Just <$> act)

-- | The answer, or nothing where GHC finds a fault, of which nothing is told.
quietly :: Ghc a -> Ghc (Maybe a)
quietly act = handleSourceError (const (return Nothing)) (Just <$> act)

-- | Parses, checks and desugars the target's modules, without optimisation. Nothing where GHC refuses one: it has told why.
compile :: Target -> Ghc (Maybe [Compiled])
compile target = do
  targets <- mapM (`guessTarget` Nothing) (targetFiles target)
  setTargets targets
  graph <- depanal [] False
  let groups = topSortModuleGraph False graph Nothing
      summaries = concatMap flattenSCC groups
  if length groups == length summaries && all ((== HsSrcFile) . ms_hsc_src) summaries
    then Just <$> mapM (compiled (\checked -> () <$ loadModule checked)) summaries
    else compileGroups

-- | The same where modules import one another: GHC finds the order.
compileGroups :: Ghc (Maybe [Compiled])
compileGroups = do
  loaded <- load LoadAllTargets
  case loaded of
    Failed -> return Nothing
    Succeeded -> do
      graph <- getModuleGraph
      Just <$> mapM (compiled (\_ -> return ())) (mgModSummaries graph)

-- | What a module exports: the name, where it is defined, and the type, where it is a function or another value.
data Export = Export
  { exportName :: String
  , exportPlace :: Maybe Place
  , exportType :: Maybe TypeShape
  }

-- | A type, with its synonyms written out.
data TypeShape
  = ShapeVariable String
  | ShapeConstructor String [TypeShape]     -- ^ with the arguments that it has
  | ShapeApplied TypeShape TypeShape        -- ^ of a variable to an argument
  | ShapeFunction TypeShape TypeShape
  | ShapeClasses [TypeShape] TypeShape      -- ^ below classes of its variables
  | ShapeOther String                       -- ^ what has no shape here, as GHC prints it

-- | The exports of the first file of a target. Nothing where GHC refuses a module: it has told why.
exports :: Target -> Ghc (Maybe [Export])
exports target = do
  targets <- mapM (`guessTarget` Nothing) (targetFiles target)
  setTargets targets
  loaded <- load LoadAllTargets
  graph <- getModuleGraph
  case (loaded, [m | m <- mgModSummaries graph, Just file <- [GHC.ml_hs_file (ms_location m)], [file] == take 1 (targetFiles target)]) of
    (Succeeded, m : _) -> do
      checked <- parseModule m >>= typecheckModule
      Just <$> mapM (exported (moduleInfo checked)) (modInfoExports (moduleInfo checked))
    _ -> return Nothing

exported :: GHC.ModuleInfo -> GHC.Name -> Ghc Export
exported info name = do
  thing <- GHC.modInfoLookupName info name
  return . Export (occurrence name) (definedAt name) $ case thing of
    Just (GHC.AnId v) -> Just (typeShape (idType v))
    _ -> Nothing

-- | The type as it is written, without the variables that it is over.
typeShape :: Type -> TypeShape
typeShape t = case tcSplitSigmaTy (expandTypeSynonyms t) of
  (_, [], inner) -> shapeOf inner
  (_, classes, inner) -> ShapeClasses (map shapeOf classes) (shapeOf inner)

shapeOf :: Type -> TypeShape
shapeOf t
  | Just (_, argument, result) <- splitFunTy_maybe t = ShapeFunction (typeShape argument) (typeShape result)
  | Just v <- getTyVar_maybe t = ShapeVariable (occurrence v)
  | Just (constructor, arguments) <- splitTyConApp_maybe t = ShapeConstructor (occurrence constructor) (map typeShape arguments)
  | Just (function, argument) <- splitAppTy_maybe t = ShapeApplied (shapeOf function) (typeShape argument)
  | otherwise = ShapeOther (showType t)

sessionFlags :: Target -> Ghc DynFlags
sessionFlags target = do
  flags0 <- getSessionDynFlags
  let flags1 =
        flags0
          { hscTarget = HscNothing
          , ghcLink = NoLink
          , debugLevel = 1
          , importPaths = targetPrelude target : "." : map takeDirectory (take 1 (targetFiles target)) ++ targetFolders target
          , ghcMode = CompManager
          }
          `gopt_unset` Opt_IgnoreInterfacePragmas
  (flags, _, _) <- parseDynamicFlags flags1 (map noLoc ["-package-env", "-", "-w"])
  return flags

-- | A module, and what is done with it once it is checked.
compiled :: (TypecheckedModule -> Ghc ()) -> ModSummary -> Ghc Compiled
compiled use summary = do
  checked <- parseModule summary >>= typecheckModule
  use checked
  desugared <- desugarModule checked :: Ghc DesugaredModule
  return
    Compiled
      { compiledModule = moduleNameString (GHC.ms_mod_name summary)
      , compiledFile = GHC.ml_hs_file (ms_location summary) `orElse` "?"
      , compiledBindings = mg_binds (coreModule desugared)
      , compiledExports = map occurrence (modInfoExports (moduleInfo checked))
      }
 where
  orElse (Just x) _ = x
  orElse Nothing y = y

-- | What a module says before it is loaded.
data Inspection = Inspection
  { inspectedOptions :: [(Place, String)]      -- ^ the options of its header, also those that the preprocessor makes
  , inspectedDeclarations :: [(Place, String)] -- ^ declarations that make GHC run or link something
  , inspectedImports :: [String]
  , inspectedComments :: [Place]               -- ^ where a comment up to the end of a line begins
  , inspectedExtents :: [Extent]
  }

-- | The names that a declaration of a module is about, its first line and its last.
data Extent = Extent [String] Int Int

-- | The options that the header of this text sets, each with its place.
headerOptions :: FilePath -> String -> Ghc [(Place, String)]
headerOptions file source = do
  flags <- getSessionDynFlags
  return (map located (getOptions flags (stringToStringBuffer source) file))

located :: Located String -> (Place, String)
located (L place option) = (placeOf place, option)

placeOf :: SrcSpan -> Place
placeOf (RealSrcSpan s _) = spanPlace s
placeOf (UnhelpfulSpan _) = Place "?" 0 0

-- | Reads a module whose header was found harmless: runs the preprocessor where it asks for it (the function gets a text
-- from the file that it leaves), and parses. Nothing is loaded.
inspect :: FilePath -> String -> ((FilePath -> IO ()) -> IO String) -> Ghc Inspection
inspect file source throughFile = do
  flags0 <- getSessionDynFlags
  let options0 = getOptions flags0 (stringToStringBuffer source) file
  (flags1, _, _) <- parseDynamicFilePragma flags0 options0
  if xopt Cpp flags1
    then do
      processed <- liftIO (throughFile (doCpp flags1 True file))
      let options = getOptions flags0 (stringToStringBuffer processed) file
      (flags2, _, _) <- parseDynamicFilePragma flags0 options
      parsed flags2 options processed
    else parsed flags1 options0 source
 where
  parsed flags options textOf = case GHC.parser textOf flags file of
    (_, Left errors) -> throwErrors errors
    (_, Right (L _ m)) ->
      return
        Inspection
          { inspectedOptions = map located options
          , inspectedDeclarations = mapMaybe declaration (hsmodDecls m)
          , inspectedImports = map (moduleNameString . unLoc . ideclName . unLoc) (hsmodImports m)
          , inspectedComments = lineComments flags file textOf
          , inspectedExtents = mapMaybe extentOf (hsmodDecls m)
          }

-- | Where the line comments of a text begin.
lineComments :: DynFlags -> FilePath -> String -> [Place]
lineComments flags file textOf = case lexTokenStream (stringToStringBuffer textOf) (mkRealSrcLoc (mkFastString file) 1 1) flags of
  POk _ tokens -> [placeOf there | L there (ITlineComment _) <- tokens]
  PFailed _ -> []

-- | What a declaration of a value, or of its type, is about.
extentOf :: LHsDecl GhcPs -> Maybe Extent
extentOf (L there d) = case (there, d) of
  (RealSrcSpan s _, ValD _ b) -> Just (over s (collectHsBindBinders b))
  (RealSrcSpan s _, SigD _ (TypeSig _ names _)) -> Just (over s (map unLoc names))
  _ -> Nothing
 where
  over s names = Extent (map (occNameString . rdrNameOcc) names) (srcSpanStartLine s) (srcSpanEndLine s)

declaration :: LHsDecl GhcPs -> Maybe (Place, String)
declaration (L place d) = case d of
  AnnD _ _ -> Just (placeOf place, "an ANN pragma: GHC runs its expression while it compiles")
  SpliceD _ _ -> Just (placeOf place, "a splice of Template Haskell: GHC runs it while it compiles")
  ForD _ _ -> Just (placeOf place, "a foreign import or export: what is behind it isn't Haskell")
  _ -> Nothing
