-- |
-- Module      : FromHaskell.Value
-- Description : The domains of the evaluator
--
-- What an expression of Core is before the script runs. A value is known as far as the source says it, and 'Residual'
-- where only a run can tell.
module FromHaskell.Value
  ( Environment (..)
  , emptyEnvironment
  , bind
  , substituted
  , Value (..)
  , Suspension (..)
  , Function (..)
  , Specialisation (..)
  , Outcome (..)
  , Template (..)
  ) where

import Data.IORef (IORef)

import FromHaskell.Ghc
import FromHaskell.Report (Place)
import FromHaskell.Script

-- | What the variables and type variables of an expression are.
data Environment = Environment
  { environmentValues :: VarEnv Value
  , environmentTypes :: TCvSubst
  }

-- | Nothing is bound.
emptyEnvironment :: Environment
emptyEnvironment = Environment emptyVarEnv emptyTCvSubst

-- | The environment with one variable more. A type variable takes a 'TypeValue'.
bind :: Environment -> Var -> Value -> Environment
bind environment variable value
  | isTyVar variable = case value of
      TypeValue t -> environment {environmentTypes = extendTvSubst (environmentTypes environment) variable t}
      _ -> environment
  | otherwise = environment {environmentValues = extendVarEnv (environmentValues environment) variable value}

-- | The type with the type variables that the environment knows.
substituted :: Environment -> Type -> Type
substituted environment = substTyUnchecked (environmentTypes environment)

-- | A value that isn't needed yet, or was.
data Suspension
  = Waiting (IO Value)
  | Ready Value

-- | A value of the evaluator.
data Value
  = Thunk (IORef Suspension)
    -- ^ evaluated where it is first needed, once
  | Closure Environment Var CoreExpr
    -- ^ a function without a name
  | TypeValue Type
    -- ^ a type argument
  | CoercionValue
    -- ^ a coercion argument, or a call stack: nothing looks at it
  | Constructed DataCon [Value]
    -- ^ a constructor with all its arguments: existential types, dictionaries, fields
  | Constructing DataCon Int Int [Value]
    -- ^ a constructor: type arguments to pass by, arguments to come, those that came (the last first)
  | KnownNumber Integer
    -- ^ an Int or Integer
  | KnownCharacter Char
  | KnownText String
    -- ^ a String whose characters are all known
  | Residual Expression ScriptType
    -- ^ what only a run of the script knows
  | Chosen (Choice Value)
    -- ^ one of several values; which of them a run of the script decides
  | Throwing Expression
    -- ^ throws this exception wherever it is evaluated
  | Primitive String Int [Value]
    -- ^ a function that the evaluator knows by name: arguments to come, those that came (the last first)
  | Doing String [Value] Place
    -- ^ an action of the evaluator with its arguments, and where it was written
  | Exceptional Type Value Value
    -- ^ a SomeException: the type of what is in it, its dictionary of Exception, and the exception
  | Named Function [Value]
    -- ^ a function with a name and the arguments that came (the last first)
  | Method Id [Value]
    -- ^ a method's selector and the arguments that came (the last first), its dictionary not among them
  | Dictionary Id [Value]
    -- ^ an instance of a library and its arguments (the last first)
  | MaskingName Name
    -- ^ the function that a mask hands to its action
  | UnknownName Id
    -- ^ a name of a library of which nothing is known
  | Shown DataCon [Value] Expression ScriptType
    -- ^ a residual value whose constructor a case around this place has shown

-- | A function or constant with a name.
data Function = Function
  { functionId :: Id
  , functionBody :: CoreExpr
  , functionEnvironment :: Environment
  , functionRecursive :: Bool
  , functionGroup :: [Id]       -- ^ the local functions that are defined with it; none for a global one
  , functionOfProgram :: Bool   -- ^ not of the prelude, and written in the source
  }

-- | The definition that was made for a function at one shape of its arguments.
data Specialisation = Specialisation
  { specialisationName :: Name
  , specialisationOutcome :: Maybe Outcome   -- ^ none while it is being made and its type isn't known
  }

-- | What a definition answers.
data Outcome
  = AnswersType ScriptType
  | AnswersNever                             -- ^ it only throws or goes on for ever
  | AnswersTemplates ScriptType [Template]

-- | What is known of a result, with names for what isn't: one of these comes, and carries what the names stand for.
data Template = Template
  { templateKey :: String
  , templateHoles :: [(Name, ScriptType)]
  , templateValue :: Value
  }
