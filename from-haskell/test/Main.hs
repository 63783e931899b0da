-- |
-- Tests of the parts that need no GHC session: the words of the command line, what is refused before anything is loaded,
-- layout, printing, totality, sharing and the integers. The programs of @test/programs@ are tried by
-- @tools/test-from-haskell@.
module Main (main) where

import Control.Monad (unless)
import Data.Maybe (isJust, isNothing)
import qualified Data.Set as Set
import System.Exit (exitFailure)

import FromHaskell.Exports
import FromHaskell.Ghc (Export (..), TypeShape (..))
import FromHaskell.Integers
import FromHaskell.Language
import FromHaskell.Layout
import FromHaskell.Options
import FromHaskell.Print
import FromHaskell.Report
import FromHaskell.Safety
import FromHaskell.Script
import FromHaskell.Share
import FromHaskell.Tidy
import FromHaskell.Total

main :: IO ()
main = do
  let failed = [name | (name, ok) <- tests, not ok]
  mapM_ (putStrLn . ("failed: " ++)) failed
  putStrLn (show (length tests - length failed) ++ " of " ++ show (length tests) ++ " hold")
  unless (null failed) exitFailure

tests :: [(String, Bool)]
tests = concat [optionTests, exportTests, safetyTests, layoutTests, reportTests, totalTests, scriptTests, integerTests]

optionTests :: [(String, Bool)]
optionTests =
  [ ("options stand before the file", read' ["--strict", "-ia:b", "X.hs"] == Just ("X.hs", True, ["a", "b"]))
  , ("options stand behind the file", read' ["X.hs", "--strict"] == Just ("X.hs", True, []))
  , ("a name like an option stands behind --", read' ["--", "-X.hs"] == Just ("-X.hs", False, []))
  , ("no file", isLeft (readOptions []))
  , ("two files", isLeft (readOptions ["a.hs", "b.hs"]))
  , ("an option that isn't known", isLeft (readOptions ["--exact", "a.hs"]))
  , ("another main", fmap optionMain (readOptions ["--main", "f", "a.hs"]) == Right "f")
  , ("each action with a beginning", fmap optionEach (readOptions ["--each", "question", "a.hs"]) == Right (Just "question"))
  , ("what is exported", fmap optionExports (readOptions ["--exports", "a.hs"]) == Right True)
  ]
 where
  read' ws = case readOptions ws of
    Right o -> Just (optionFile o, optionStrict o, optionFolders o)
    Left _ -> Nothing
  isLeft = either (const True) (const False)

exportTests :: [(String, Bool)]
exportTests =
  [ ("comments for an audit", auditComments [Place "a.hs" 1 1, Place "a.hs" 2 7, Place "a.hs" 3 1] source == ["acquire; release", "skip f"])
  , ("exports as JSON", writeExports [] "" [Export "f\"" (Just (Place "a.hs" 3 1)) (Just kind), Export "T" Nothing Nothing] == json)
  ]
 where
  source = "-- audit: acquire; release\nf = 1 --  audit:  skip f\n-- an audit: no\n"
  kind = ShapeClasses [ShapeConstructor "Show" [ShapeVariable "a"]] (ShapeFunction (ShapeVariable "a") (ShapeApplied (ShapeVariable "m") (ShapeOther "x")))
  json =
    "{\"exports\": [{\"name\": \"f\\\"\", \"file\": \"a.hs\", \"line\": 3, \"type\": [\"classes\", [[\"constructor\", \"Show\", [\"variable\", \"a\"]]], "
      ++ "[\"function\", [\"variable\", \"a\"], [\"applied\", [\"variable\", \"m\"], [\"other\", \"x\"]]]]}, {\"name\": \"T\"}], \"comments\": []}\n"

safetyTests :: [(String, Bool)]
safetyTests =
  [ ("refused: " ++ o, isJust (refusedOption o))
  | o <- words "-XTemplateHaskell -XQuasiQuotes -XTemplateHaskellQuotes -XCApiFFI -F -pgmF -pgmP -fplugin=P -optP-DX -package -i. -lm -dynamic-too -fobject-code -odir"
  ]
    ++ [("harmless: " ++ o, isNothing (refusedOption o)) | o <- words "-Wall -Wno-unused-imports -w -O2 -XGADTs -XCPP -fno-warn-orphans -cpp"]
    ++ [ ("an included file", includesOf "a\n#include \"x.h\"\n" == [(2, Just "x.h")])
       , ("one behind blanks", includesOf "  #  include <x.h>" == [(1, Just "x.h")])
       , ("one by a macro", includesOf "#include X" == [(1, Nothing)])
       , ("one over two lines", map snd (includesOf "#inc\\\nlude \"x.h\"") == [Just "x.h"])
       , ("no inclusion", null (includesOf "#if 1\n-- include \"x\"\n#endif"))
       , ("bird tracks", unlit "text\n> main = x\n" == "\n  main = x\n")
       , ("code blocks", unlit "\\begin{code}\nf\n\\end{code}\ng\n" == "\nf\n\n\n")
       ]

layoutTests :: [(String, Bool)]
layoutTests =
  [ ("a group on one line", render 10 (group (text "a" <> lineOr " " <> text "b")) == "a b")
  , ("a group that is broken", render 2 (group (text "a" <> nest 1 (lineOr " " <> text "bc"))) == "a\n bc")
  , ("what follows counts", render 4 (group (text "a" <> lineOr " " <> text "b") <> text "cd") == "a\nbcd")
  ]

reportTests :: [(String, Bool)]
reportTests =
  [ ("names of causes differ", distinct (map causeName [minBound ..]))
  , ("names of notes differ", distinct (map noteName [minBound ..]))
  , ("a refusal is one of GHC's errors", takeWhile (/= '\n') (renderRefusal (Refusal (Place "A.hs" 3 4) CauseStm "x")) == "A.hs:3:4: error: [stm]")
  , ("forms have names of their own", distinct (map formFunction forms))
  , ("each form's word is reserved", all ((`Set.member` reservedWords) . formFunction) forms)
  ]
 where
  distinct xs = Set.size (Set.fromList xs) == length xs

totalTests :: [(String, Bool)]
totalTests =
  [ ("a part of a list", isTotal none (recursive (ChooseCase (ListType IntType) (Variable "xs") (ListArms done "y" "ys" (call [Variable "ys", Variable "n"])))))
  , ("the same list", not (isTotal none (recursive (ChooseCase (ListType IntType) (Variable "xs") (ListArms done "y" "ys" (call [Variable "xs", Variable "n"]))))))
  , ("a number above its bound", isTotal none (recursive (ChooseIf (Binary "<=" (Variable "n") (Number 0)) done (call [Variable "xs", Binary "-" (Variable "n") (Number 1)]))))
  , ("a number that passes zero", not (isTotal none (recursive (ChooseIf (Binary "==" (Variable "n") (Number 0)) done (call [Variable "xs", Binary "-" (Variable "n") (Number 1)])))))
  , ("a division", not (isTotal none (Definition "f" [("n", IntType)] IntType [Do Nothing (returnAction (Builtin "div" [Number 1, Variable "n"])) IntType] "" nowhere)))
  , ("another function that isn't total", not (isTotal none (Definition "f" [] IntType [Do Nothing (CallAction "g" []) IntType] "" nowhere)))
  , ("what is looked at first", strictParameters (recursive (ChooseIf (Variable "n") done done)) == [False, True])
  ]
 where
  none = const False
  done = [Do Nothing (returnAction (Number 0)) IntType]
  call as = [Do Nothing (CallAction "f" as) IntType]
  recursive choice = Definition "f" [("xs", ListType IntType), ("n", IntType)] IntType [Do Nothing (Branch choice) IntType] "" nowhere

scriptTests :: [(String, Bool)]
scriptTests =
  [ ("levels of operators", printExpression (Binary "*" (Binary "+" (Variable "a") (Number 1)) (Number (-2))) == "(a + 1) * (-2)")
  , ("a choice of truths", decide BoolType (ChooseIf (Variable "c") (Truth True) (Truth False)) == Variable "c")
  , ("a case that makes again what it takes apart", decide t (ChooseCase t (Variable "e") (EitherArms "x" (LeftOf IntType TextType (Variable "x")) "y" (RightOf IntType TextType (Variable "y")))) == Variable "e")
  , ("a case of another type stays", decide t (ChooseCase u (Variable "e") (EitherArms "x" (LeftOf IntType TextType (Variable "x")) "y" (RightOf IntType TextType (Variable "y")))) /= Variable "e")
  , ("an expression that stands twice", length (definitionBody (share twice)) == 3)
  , ("names again from the front", map fst (definitionParameters (tidy Set.empty (Definition "f" [("x7", IntType)] IntType [Do Nothing (returnAction (Variable "x7")) IntType] "" nowhere))) == ["x"])
  , ("lines of 100 columns", all ((<= 100) . length) (lines (printDefinition (Definition "f" [("parameter" ++ show n, IntType) | n <- [1 :: Int .. 20]] UnitType [Do Nothing (returnAction Unit) UnitType] "A.hs:1" nowhere))))
  ]
 where
  t = EitherType IntType TextType
  u = EitherType IntType BoolType
  part = Builtin "fst" [Builtin "snd" [Variable "p"]]
  twice = Definition "f" [("p", UnitType)] UnitType [Do Nothing (CallAction "g" [part]) UnitType, Do Nothing (CallAction "g" [part]) UnitType] "" nowhere

integerTests :: [(String, Bool)]
integerTests =
  [ ("counting needs no check", null (fst (integers [answering (Builtin "integerPlus" [Variable "n", Number 1])])))
  , ("a product does", not (null (fst (integers [answering (Builtin "integerTimes" [Variable "n", Variable "n"])]))))
  , ("a sum of two unknown ones does", not (null (fst (integers [answering (Builtin "integerPlus" [Variable "n", Variable "n"])]))))
  , ("an Int isn't asked", null (fst (integers [answering (Binary "*" (Variable "n") (Variable "n"))])))
  ]
 where
  answering e = Definition "f" [("n", IntType)] IntType [Do Nothing (returnAction e) IntType] "" nowhere
