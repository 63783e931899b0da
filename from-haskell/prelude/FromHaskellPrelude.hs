{-# LANGUAGE RankNTypes, ScopedTypeVariables, BangPatterns #-}
{-# OPTIONS_GHC -Wno-missing-methods #-}
{-# OPTIONS_HADDOCK hide #-}

-- What functions of base are, for those that the evaluator doesn't know itself. It is read as source with each program:
-- a name stands for the function of that name, and @method__Instance@ for a method of an instance of base. The texts
-- follow the documentation of base; what each does where it is interrupted is as there.
module FromHaskellPrelude where
import Prelude (IO, Int, Integer, Bool(..), Maybe(..), Either(..), String, Char, Functor, Applicative, Monad, Show, Eq, Ord, ShowS, Ordering(..))
import qualified Prelude as P
import qualified Data.Foldable as F
import qualified Data.Traversable as T
import qualified Control.Applicative as A
import Control.Exception (SomeException, Exception, ArithException(..), AsyncException(..), MaskingState(..))
import qualified Control.Exception as E
import qualified GHC.Conc as C
import qualified Data.IORef as R
import qualified Control.Monad.Catch as MC
import Control.Concurrent (MVar, ThreadId)
import Control.Concurrent.QSem (QSem)
import Control.Concurrent.QSemN (QSemN)
import qualified Control.Concurrent as C
import Prelude ((>>=), (>>), return, pure, fmap, (+), (-), (==), (<), (>), (<=), (&&), (||), (++), not, showsPrec, show, Foldable, Traversable)

-- primitives of the evaluator
showNumber :: Int -> String
showNumber = showNumber
{-# NOINLINE showNumber #-}
referenceCell :: R.IORef a -> MVar a
referenceCell = referenceCell
{-# NOINLINE referenceCell #-}
cellReference :: MVar a -> R.IORef a
cellReference = cellReference
{-# NOINLINE cellReference #-}
semaphoreCell :: QSem -> MVar Waiters
semaphoreCell = semaphoreCell
{-# NOINLINE semaphoreCell #-}
cellSemaphore :: MVar Waiters -> QSem
cellSemaphore = cellSemaphore
{-# NOINLINE cellSemaphore #-}
quantityCell :: QSemN -> MVar Wanters
quantityCell = quantityCell
{-# NOINLINE quantityCell #-}
cellQuantity :: MVar Wanters -> QSemN
cellQuantity = cellQuantity
{-# NOINLINE cellQuantity #-}
getMaskingText :: IO String
getMaskingText = getMaskingText
{-# NOINLINE getMaskingText #-}

-- Functor, Applicative, Monad of IO
fmap__FunctorIO :: (a -> b) -> IO a -> IO b
fmap__FunctorIO f m = m >>= \x -> return (f x)
constant__FunctorIO :: a -> IO b -> IO a            -- <$
constant__FunctorIO x m = m >>= \_ -> return x
apply__ApplicativeIO :: IO (a -> b) -> IO a -> IO b   -- <*>
apply__ApplicativeIO mf mx = mf >>= \f -> mx >>= \x -> return (f x)
andThen__ApplicativeIO :: IO a -> IO b -> IO b
andThen__ApplicativeIO a b = a >> b
andBefore__ApplicativeIO :: IO a -> IO b -> IO a
andBefore__ApplicativeIO a b = a >>= \x -> b >> return x
liftA2__ApplicativeIO :: (a -> b -> c) -> IO a -> IO b -> IO c
liftA2__ApplicativeIO f a b = a >>= \x -> b >>= \y -> return (f x y)

-- Control.Monad
forever :: Applicative f => f a -> f b
forever a = let a' = a A.*> a' in a'
replicateM_ :: Applicative m => Int -> m a -> m ()
replicateM_ cnt0 f = loop cnt0
  where loop cnt = if cnt <= 0 then pure () else f A.*> loop (cnt - 1)
replicateM :: Applicative m => Int -> m a -> m [a]
replicateM cnt0 f = loop cnt0
  where loop cnt = if cnt <= 0 then pure [] else A.liftA2 (:) f (loop (cnt - 1))
when, unless :: Applicative f => Bool -> f () -> f ()
when p s = if p then s else pure ()
unless p s = if p then pure () else s
void :: Functor f => f a -> f ()
void x = fmap (\_ -> ()) x
foldM :: (Foldable t, Monad m) => (b -> a -> m b) -> b -> t a -> m b
foldM f z0 xs = go z0 (F.toList xs) where
  go z [] = return z
  go z (y:ys) = f z y >>= \z' -> go z' ys
foldM_ :: (Foldable t, Monad m) => (b -> a -> m b) -> b -> t a -> m ()
foldM_ f a xs = foldM f a xs >> return ()
zipWithM_ :: Applicative m => (a -> b -> m c) -> [a] -> [b] -> m ()
zipWithM_ f xs ys = sequenceA_ (zipWith f xs ys)
zipWithM :: Applicative m => (a -> b -> m c) -> [a] -> [b] -> m [c]
zipWithM f xs ys = T.sequenceA (zipWith f xs ys)
join :: Monad m => m (m a) -> m a
join x = x >>= \y -> y

-- Data.Foldable
mapM_ :: (Foldable t, Monad m) => (a -> m b) -> t a -> m ()
mapM_ f = F.foldr (\x k -> f x >> k) (return ())
forM_ :: (Foldable t, Monad m) => t a -> (a -> m b) -> m ()
forM_ t f = mapM_ f t
traverse_ :: (Foldable t, Applicative f) => (a -> f b) -> t a -> f ()
traverse_ f = F.foldr (\x k -> f x A.*> k) (pure ())
for_ :: (Foldable t, Applicative f) => t a -> (a -> f b) -> f ()
for_ t f = traverse_ f t
sequence_ :: (Foldable t, Monad m) => t (m a) -> m ()
sequence_ = F.foldr (>>) (return ())
sequenceA_ :: (Foldable t, Applicative f) => t (f a) -> f ()
sequenceA_ = F.foldr (A.*>) (pure ())
forM :: (Traversable t, Monad m) => t a -> (a -> m b) -> m (t b)
forM t f = T.mapM f t
for :: (Traversable t, Applicative f) => t a -> (a -> f b) -> f (t b)
for t f = T.traverse f t
any, all :: Foldable t => (a -> Bool) -> t a -> Bool
any p = F.foldr (\x k -> p x || k) False
all p = F.foldr (\x k -> p x && k) True
and, or :: Foldable t => t Bool -> Bool
and = F.foldr (&&) True
or = F.foldr (||) False
foldr__FoldableList :: (a -> b -> b) -> b -> [a] -> b
foldr__FoldableList = foldr
foldl__FoldableList, foldl'__FoldableList :: (b -> a -> b) -> b -> [a] -> b
foldl__FoldableList f = go where
  go z [] = z
  go z (x:xs) = go (f z x) xs
foldl'__FoldableList f = go where
  go !z [] = z
  go !z (x:xs) = go (f z x) xs
null__FoldableList :: [a] -> Bool
null__FoldableList [] = True
null__FoldableList _ = False
length__FoldableList :: [a] -> Int
length__FoldableList = length
length :: [a] -> Int
length xs = lenAcc xs 0
lenAcc :: [a] -> Int -> Int
lenAcc [] n = n
lenAcc (_:ys) n = lenAcc ys (n + 1)
sum__FoldableList, product__FoldableList :: P.Num a => [a] -> a
sum__FoldableList = foldl'__FoldableList (+) (P.fromInteger 0)
product__FoldableList = foldl'__FoldableList (P.*) (P.fromInteger 1)
elem__FoldableList :: Eq a => a -> [a] -> Bool
elem__FoldableList = elem
elem :: Eq a => a -> [a] -> Bool
elem _ [] = False
elem x (y:ys) = x == y || elem x ys
toList__FoldableList :: [a] -> [a]
toList__FoldableList xs = xs
maximum__FoldableList, minimum__FoldableList :: Ord a => [a] -> a
maximum__FoldableList (x:xs) = foldl'__FoldableList P.max x xs
minimum__FoldableList (x:xs) = foldl'__FoldableList P.min x xs
foldr__FoldableMaybe :: (a -> b -> b) -> b -> Maybe a -> b
foldr__FoldableMaybe _ z Nothing = z
foldr__FoldableMaybe f z (Just x) = f x z
traverse__TraversableList, mapM__TraversableList' :: Applicative f => (a -> f b) -> [a] -> f [b]
traverse__TraversableList f = foldr (\x ys -> A.liftA2 (:) (f x) ys) (pure [])
mapM__TraversableList' = traverse__TraversableList
mapM__TraversableList :: Monad f => (a -> f b) -> [a] -> f [b]
mapM__TraversableList f = foldr (\x ys -> f x >>= \y -> ys >>= \zs -> return (y : zs)) (return [])
sequence__TraversableList :: Monad f => [f a] -> f [a]
sequence__TraversableList = foldr (\x ys -> x >>= \y -> ys >>= \zs -> return (y : zs)) (return [])
sequenceA__TraversableList :: Applicative f => [f a] -> f [a]
sequenceA__TraversableList = foldr (A.liftA2 (:)) (pure [])
fmap__FunctorList :: (a -> b) -> [a] -> [b]
fmap__FunctorList = map
foldl :: (b -> a -> b) -> b -> [a] -> b
foldl = foldl__FoldableList

-- lists
foldr :: (a -> b -> b) -> b -> [a] -> b
foldr k z = go where
  go [] = z
  go (y:ys) = k y (go ys)
map :: (a -> b) -> [a] -> [b]
map _ [] = []
map f (x:xs) = f x : map f xs
filter :: (a -> Bool) -> [a] -> [a]
filter _ [] = []
filter p (x:xs) = if p x then x : filter p xs else filter p xs
listAppend :: [a] -> [a] -> [a]      -- ++ at other types than Char
listAppend [] ys = ys
listAppend (x:xs) ys = x : listAppend xs ys
concat :: Foldable t => t [a] -> [a]
concat = F.foldr (++) []
concatMap :: Foldable t => (a -> [b]) -> t a -> [b]
concatMap f = F.foldr (\x b -> f x ++ b) []
reverse :: [a] -> [a]
reverse l = rev l [] where
  rev [] a = a
  rev (x:xs) a = rev xs (x:a)
zip :: [a] -> [b] -> [(a, b)]
zip (a:as) (b:bs) = (a, b) : zip as bs
zip _ _ = []
zipWith :: (a -> b -> c) -> [a] -> [b] -> [c]
zipWith f (a:as) (b:bs) = f a b : zipWith f as bs
zipWith _ _ _ = []
take, drop :: Int -> [a] -> [a]
take n xs = if n <= 0 then [] else case xs of { [] -> []; (y:ys) -> y : take (n - 1) ys }
drop n xs = if n <= 0 then xs else case xs of { [] -> []; (_:ys) -> drop (n - 1) ys }
replicate :: Int -> a -> [a]
replicate n x = if n <= 0 then [] else x : replicate (n - 1) x
lookup :: Eq a => a -> [(a, b)] -> Maybe b
lookup _ [] = Nothing
lookup key ((x, y):xys) = if key == x then Just y else lookup key xys
span :: (a -> Bool) -> [a] -> ([a], [a])
span _ [] = ([], [])
span p xs@(x:xs') = if p x then (let (ys, zs) = span p xs' in (x:ys, zs)) else ([], xs)
break :: (a -> Bool) -> [a] -> ([a], [a])
break p = span (\x -> not (p x))
enumFromTo__EnumInt :: Int -> Int -> [Int]
enumFromTo__EnumInt a b = if a > b then [] else a : enumFromTo__EnumInt (a + 1) b
repeat :: a -> [a]
repeat x = let xs = x : xs in xs
delete :: Eq a => a -> [a] -> [a]
delete = deleteBy (==)
deleteBy :: (a -> a -> Bool) -> a -> [a] -> [a]
deleteBy _ _ [] = []
deleteBy eq x (y:ys) = if x `eq` y then ys else y : deleteBy eq x ys
unwords, unlines :: [String] -> String
unwords [] = ""
unwords [w] = w
unwords (w:ws) = w ++ " " ++ unwords ws
unlines [] = ""
unlines (l:ls) = l ++ "\n" ++ unlines ls
intercalate :: [a] -> [[a]] -> [a]
intercalate _ [] = []
intercalate _ [x] = x
intercalate s (x:xs) = x ++ s ++ intercalate s xs

-- Eq, Ord, Show
equal__EqList :: Eq a => [a] -> [a] -> Bool
equal__EqList [] [] = True
equal__EqList (x:xs) (y:ys) = x == y && equal__EqList xs ys
equal__EqList _ _ = False
unequal__EqList :: Eq a => [a] -> [a] -> Bool
unequal__EqList a b = not (equal__EqList a b)
equal__EqMaybe :: Eq a => Maybe a -> Maybe a -> Bool
equal__EqMaybe Nothing Nothing = True
equal__EqMaybe (Just a) (Just b) = a == b
equal__EqMaybe _ _ = False
unequal__EqMaybe :: Eq a => Maybe a -> Maybe a -> Bool
unequal__EqMaybe a b = not (equal__EqMaybe a b)
equal__EqPair :: (Eq a, Eq b) => (a, b) -> (a, b) -> Bool
equal__EqPair (a, b) (c, d) = a == c && b == d
equal__EqEither :: (Eq a, Eq b) => Either a b -> Either a b -> Bool
equal__EqEither (Left a) (Left b) = a == b
equal__EqEither (Right a) (Right b) = a == b
equal__EqEither _ _ = False
equal__EqUnit :: () -> () -> Bool
equal__EqUnit () () = True
showsPrec__ShowInt :: Int -> Int -> ShowS
showsPrec__ShowInt d n s = if d > 6 && n < 0 then "(" ++ showNumber n ++ ")" ++ s else showNumber n ++ s
show__ShowBool :: Bool -> String
show__ShowBool b = if b then "True" else "False"
showsPrec__ShowBool :: Int -> Bool -> ShowS
showsPrec__ShowBool _ b s = show__ShowBool b ++ s
show__ShowUnit :: () -> String
show__ShowUnit () = "()"
showsPrec__ShowUnit :: Int -> () -> ShowS
showsPrec__ShowUnit _ () s = "()" ++ s
showsPrec__ShowMaybe :: Show a => Int -> Maybe a -> ShowS
showsPrec__ShowMaybe _ Nothing s = "Nothing" ++ s
showsPrec__ShowMaybe d (Just x) s = showParen (d > 10) (\r -> "Just " ++ showsPrec 11 x r) s
show__ShowMaybe :: Show a => Maybe a -> String
show__ShowMaybe x = showsPrec__ShowMaybe 0 x ""
showsPrec__ShowEither :: (Show a, Show b) => Int -> Either a b -> ShowS
showsPrec__ShowEither d (Left x) s = showParen (d > 10) (\r -> "Left " ++ showsPrec 11 x r) s
showsPrec__ShowEither d (Right x) s = showParen (d > 10) (\r -> "Right " ++ showsPrec 11 x r) s
show__ShowEither :: (Show a, Show b) => Either a b -> String
show__ShowEither x = showsPrec__ShowEither 0 x ""
showsPrec__ShowPair :: (Show a, Show b) => Int -> (a, b) -> ShowS
showsPrec__ShowPair _ (a, b) s = "(" ++ showsPrec 0 a ("," ++ showsPrec 0 b (")" ++ s))
show__ShowPair :: (Show a, Show b) => (a, b) -> String
show__ShowPair x = showsPrec__ShowPair 0 x ""
showsPrec__ShowTriple :: (Show a, Show b, Show c) => Int -> (a, b, c) -> ShowS
showsPrec__ShowTriple _ (a, b, c) s = "(" ++ showsPrec 0 a ("," ++ showsPrec 0 b ("," ++ showsPrec 0 c (")" ++ s)))
show__ShowTriple :: (Show a, Show b, Show c) => (a, b, c) -> String
show__ShowTriple x = showsPrec__ShowTriple 0 x ""
showsPrec__ShowList :: Show a => Int -> [a] -> ShowS
showsPrec__ShowList _ xs s = P.showList xs s
show__ShowList :: Show a => [a] -> String
show__ShowList xs = P.showList xs ""
showListAny :: Show a => [a] -> ShowS
showListAny [] s = "[]" ++ s
showListAny (x:xs) s = "[" ++ showsPrec 0 x (showRest xs s)
showRest :: Show a => [a] -> ShowS
showRest [] s = "]" ++ s
showRest (y:ys) s = "," ++ showsPrec 0 y (showRest ys s)
showParen :: Bool -> ShowS -> ShowS
showParen b p s = if b then "(" ++ p (")" ++ s) else p s
showString :: String -> ShowS
showString a b = a ++ b
showSpace :: ShowS
showSpace s = " " ++ s
shows :: Show a => a -> ShowS
shows x s = showsPrec 0 x s
showArith :: ArithException -> String
showArith e = case e of { DivideByZero -> "divide by zero"; Overflow -> "arithmetic overflow"; Underflow -> "arithmetic underflow"
  ; LossOfPrecision -> "loss of precision"; Denormal -> "denormal"; RatioZeroDenominator -> "Ratio has zero denominator" }
show__ShowArithException :: ArithException -> String
show__ShowArithException = showArith
showsPrec__ShowArithException :: Int -> ArithException -> ShowS
showsPrec__ShowArithException _ e s = showArith e ++ s
showAsync :: AsyncException -> String
showAsync e = case e of { ThreadKilled -> "thread killed"; UserInterrupt -> "user interrupt"; StackOverflow -> "stack overflow"; HeapOverflow -> "heap overflow" }
show__ShowAsyncException :: AsyncException -> String
show__ShowAsyncException = showAsync
showsPrec__ShowAsyncException :: Int -> AsyncException -> ShowS
showsPrec__ShowAsyncException _ e s = showAsync e ++ s
showsPrec__ShowErrorCall :: Int -> E.ErrorCall -> ShowS
showsPrec__ShowErrorCall _ e r = show e ++ r
show__ShowBlockedIndefinitelyOnMVar :: E.BlockedIndefinitelyOnMVar -> String
show__ShowBlockedIndefinitelyOnMVar _ = "thread blocked indefinitely in an MVar operation"
showsPrec__ShowBlockedIndefinitelyOnMVar :: Int -> E.BlockedIndefinitelyOnMVar -> ShowS
showsPrec__ShowBlockedIndefinitelyOnMVar _ _ s = "thread blocked indefinitely in an MVar operation" ++ s
show__ShowMaskingState :: MaskingState -> String
show__ShowMaskingState e = case e of { Unmasked -> "Unmasked"; MaskedInterruptible -> "MaskedInterruptible"; MaskedUninterruptible -> "MaskedUninterruptible" }
print :: Show a => a -> IO ()
print x = P.putStrLn (show x)
getMaskingState :: IO MaskingState
getMaskingState = getMaskingText >>= \s -> return (if s == "Unmasked" then Unmasked else if s == "MaskedInterruptible" then MaskedInterruptible else MaskedUninterruptible)

-- Control.Exception, Control.Concurrent
handle :: Exception e => (e -> IO a) -> IO a -> IO a
handle h a = E.catch a h
try :: Exception e => IO a -> IO (Either e a)
try a = E.catch (a >>= \v -> return (Right v)) (\e -> return (Left e))
bracket_ :: IO a -> IO b -> IO c -> IO c
bracket_ before after thing = E.bracket before (\_ -> after) (\_ -> thing)
bracketOnError :: IO a -> (a -> IO b) -> (a -> IO c) -> IO c
bracketOnError before after thing = E.mask (\restore -> before >>= \a -> restore (thing a) `E.onException` after a)
catchJust :: Exception e => (e -> Maybe b) -> IO a -> (b -> IO a) -> IO a
catchJust p a handler = E.catch a (\e -> case p e of { Nothing -> E.throwIO e; Just b -> handler b })
handleJust :: Exception e => (e -> Maybe b) -> (b -> IO a) -> IO a -> IO a
handleJust p h a = catchJust p a h
tryJust :: Exception e => (e -> Maybe b) -> IO a -> IO (Either b a)
tryJust p a = try a >>= \r -> case r of
  Right v -> return (Right v)
  Left e -> case p e of { Nothing -> E.throwIO e; Just b -> return (Left b) }
forkFinally :: IO a -> (Either SomeException a -> IO ()) -> IO ThreadId
forkFinally action and_then = E.mask (\restore -> C.forkIO (try (restore action) >>= and_then))
withMVar, withMVarMasked :: MVar a -> (a -> IO b) -> IO b
withMVar m io = E.mask (\restore -> C.takeMVar m >>= \a -> (restore (io a) `E.onException` C.putMVar m a) >>= \b -> C.putMVar m a >> return b)
withMVarMasked m io = E.mask_ (C.takeMVar m >>= \a -> (io a `E.onException` C.putMVar m a) >>= \b -> C.putMVar m a >> return b)
modifyMVar, modifyMVarMasked :: MVar a -> (a -> IO (a, b)) -> IO b
modifyMVar m io = E.mask (\restore -> C.takeMVar m >>= \a -> (restore (io a >>= E.evaluate) `E.onException` C.putMVar m a) >>= \r -> case r of (a', b) -> C.putMVar m a' >> return b)
modifyMVarMasked m io = E.mask_ (C.takeMVar m >>= \a -> ((io a >>= E.evaluate) `E.onException` C.putMVar m a) >>= \r -> case r of (a', b) -> C.putMVar m a' >> return b)
modifyMVarMasked_ :: MVar a -> (a -> IO a) -> IO ()
modifyMVarMasked_ m io = E.mask_ (C.takeMVar m >>= \a -> (io a `E.onException` C.putMVar m a) >>= \a' -> C.putMVar m a')
swapMVar :: MVar a -> a -> IO a
swapMVar m new = E.mask_ (C.takeMVar m >>= \old -> C.putMVar m new >> return old)

-- small things
isJust, isNothing :: Maybe a -> Bool
isJust Nothing = False
isJust _ = True
isNothing Nothing = True
isNothing _ = False
fromMaybe :: a -> Maybe a -> a
fromMaybe d Nothing = d
fromMaybe _ (Just x) = x
maybe :: b -> (a -> b) -> Maybe a -> b
maybe n _ Nothing = n
maybe _ f (Just x) = f x
either :: (a -> c) -> (b -> c) -> Either a b -> c
either f _ (Left x) = f x
either _ g (Right y) = g y
catMaybes :: [Maybe a] -> [a]
catMaybes [] = []
catMaybes (Nothing:r) = catMaybes r
catMaybes (Just x:r) = x : catMaybes r
mapMaybe :: (a -> Maybe b) -> [a] -> [b]
mapMaybe _ [] = []
mapMaybe f (x:xs) = case f x of { Nothing -> mapMaybe f xs; Just y -> y : mapMaybe f xs }
asTypeOf :: a -> a -> a
asTypeOf x _ = x
subtract :: P.Num a => a -> a -> a
subtract x y = y - x
constructorTrue, constructorFalse :: Bool
constructorTrue = True
constructorFalse = False
constructorUnit :: ()
constructorUnit = ()
constructorNothing :: Maybe a
constructorNothing = Nothing
constructorJust :: a -> Maybe a
constructorJust = Just
defaultShow :: Show a => a -> String
defaultShow x = showsPrec 0 x ""
defaultShowsPrec :: Show a => Int -> a -> ShowS
defaultShowsPrec _ x s = show x ++ s
defaultUnequal, defaultEqual :: Eq a => a -> a -> Bool
defaultUnequal a b = not (a == b)
defaultEqual a b = not (a P./= b)
(<$>) :: Functor f => (a -> b) -> f a -> f b
f <$> x = fmap f x
(<&>) :: Functor f => f a -> (a -> b) -> f b
x <&> f = fmap f x
(=<<) :: Monad m => (a -> m b) -> m a -> m b
f =<< m = m >>= f

-- an IORef is a cell that is empty only under an uninterruptible mask
newIORef :: a -> IO (R.IORef a)
newIORef x = C.newMVar x >>= \m -> return (cellReference m)
readIORef :: R.IORef a -> IO a
readIORef r = E.uninterruptibleMask_ (C.readMVar (referenceCell r))
writeIORef, atomicWriteIORef :: R.IORef a -> a -> IO ()
writeIORef r x = E.uninterruptibleMask_ (C.takeMVar (referenceCell r) >>= \_ -> C.putMVar (referenceCell r) x)
atomicWriteIORef = writeIORef
modifyIORef, modifyIORef' :: R.IORef a -> (a -> a) -> IO ()
modifyIORef r f = readIORef r >>= \x -> writeIORef r (f x)
modifyIORef' r f = readIORef r >>= \x -> E.evaluate (f x) >>= \y -> writeIORef r y
atomicModifyIORef, atomicModifyIORef' :: R.IORef a -> (a -> (a, b)) -> IO b
atomicModifyIORef r f = E.uninterruptibleMask_ (C.takeMVar (referenceCell r) >>= \a ->
  let q = f a in C.putMVar (referenceCell r) (P.fst q) >> return (P.snd q))
atomicModifyIORef' r f = E.uninterruptibleMask_ (C.takeMVar (referenceCell r) >>= \a ->
  let q = f a in C.putMVar (referenceCell r) (P.fst q) >> return (P.snd q)) >>= \b -> E.evaluate b

takeWhile, dropWhile :: (a -> Bool) -> [a] -> [a]
takeWhile _ [] = []
takeWhile p (x:xs) = if p x then x : takeWhile p xs else []
dropWhile _ [] = []
dropWhile p xs@(x:xs') = if p x then dropWhile p xs' else xs
enumFrom__EnumInt :: Int -> [Int]
enumFrom__EnumInt n = n : enumFrom__EnumInt (n + 1)
iterate :: (a -> a) -> a -> [a]
iterate f x = x : iterate f (f x)
head :: [a] -> a
head (x:_) = x
head [] = P.errorWithoutStackTrace "Prelude.head: empty list"
tail :: [a] -> [a]
tail (_:xs) = xs
tail [] = P.errorWithoutStackTrace "Prelude.tail: empty list"
last :: [a] -> a
last [x] = x
last (_:xs) = last xs
last [] = P.errorWithoutStackTrace "Prelude.last: empty list"
init :: [a] -> [a]
init [_] = []
init (x:xs) = x : init xs
init [] = P.errorWithoutStackTrace "Prelude.init: empty list"
partition :: (a -> Bool) -> [a] -> ([a], [a])
partition p xs = foldr (\x r -> case r of (ts, fs) -> if p x then (x:ts, fs) else (ts, x:fs)) ([], []) xs
uncons :: [a] -> Maybe (a, [a])
uncons [] = Nothing
uncons (x:xs) = Just (x, xs)
listToMaybe :: [a] -> Maybe a
listToMaybe [] = Nothing
listToMaybe (x:_) = Just x
find :: Foldable t => (a -> Bool) -> t a -> Maybe a
find p t = F.foldr (\x k -> if p x then Just x else k) Nothing t
insertBy :: (a -> a -> Ordering) -> a -> [a] -> [a]
insertBy _ x [] = [x]
insertBy cmp x ys@(y:ys') = case cmp x y of { GT -> y : insertBy cmp x ys'; _ -> x : ys }
nub :: Eq a => [a] -> [a]
nub l = go l [] where
  go [] _ = []
  go (y:ys) xs = if elem y xs then go ys xs else y : go ys (y:xs)

-- exceptions
generalBracket__MonadMaskIO :: IO a -> (a -> MC.ExitCase b -> IO c) -> (a -> IO b) -> IO (b, c)
generalBracket__MonadMaskIO acquire release use = E.mask (\unmasked -> acquire >>= \resource ->
  E.catch (unmasked (use resource)) (\e -> release resource (MC.ExitCaseException e) >>= \_ -> E.throwIO (e :: SomeException)) >>= \b ->
  release resource (MC.ExitCaseSuccess b) >>= \c -> return (b, c))

zip3 :: [a] -> [b] -> [c] -> [(a, b, c)]
zip3 (a:as) (b:bs) (c:cs) = (a, b, c) : zip3 as bs cs
zip3 _ _ _ = []
zipWith3 :: (a -> b -> c -> d) -> [a] -> [b] -> [c] -> [d]
zipWith3 f (a:as) (b:bs) (c:cs) = f a b c : zipWith3 f as bs cs
zipWith3 _ _ _ _ = []
unzip :: [(a, b)] -> ([a], [b])
unzip = foldr (\q r -> case q of (a, b) -> case r of (as, bs) -> (a:as, b:bs)) ([], [])

-- numbers
even, odd :: P.Integral a => a -> Bool
even n = n `P.mod` 2 == 0
odd n = not (even n)
compare__OrdInt :: Int -> Int -> Ordering
compare__OrdInt a b = if a < b then LT else if a == b then EQ else GT
compare__OrdInteger :: Integer -> Integer -> Ordering
compare__OrdInteger a b = if a < b then LT else if a == b then EQ else GT
compare__OrdChar :: Char -> Char -> Ordering
compare__OrdChar a b = if a < b then LT else if a == b then EQ else GT
showInteger :: Integer -> String
showInteger n = show n
showsPrec__ShowInteger :: Int -> Integer -> ShowS
showsPrec__ShowInteger d n s = if d > 6 && n < 0 then "(" ++ showInteger n ++ ")" ++ s else showInteger n ++ s
enumFromTo__EnumInteger :: Integer -> Integer -> [Integer]
enumFromTo__EnumInteger a b = if a > b then [] else a : enumFromTo__EnumInteger (a + 1) b
enumFrom__EnumInteger :: Integer -> [Integer]
enumFrom__EnumInteger n = n : enumFrom__EnumInteger (n + 1)
enumFromThenTo__EnumInt :: Int -> Int -> Int -> [Int]
enumFromThenTo__EnumInt a b c = if b P.>= a then enumUp (b - a) a c else enumDown (b - a) a c
enumUp, enumDown :: Int -> Int -> Int -> [Int]
enumUp d a c = if a > c then [] else a : enumUp d (a + d) c
enumDown d a c = if a < c then [] else a : enumDown d (a + d) c
quotRem__IntegralInt, divMod__IntegralInt :: Int -> Int -> (Int, Int)
quotRem__IntegralInt a b = (P.quot a b, P.rem a b)
divMod__IntegralInt a b = (P.div a b, P.mod a b)
quotRem__IntegralInteger, divMod__IntegralInteger :: Integer -> Integer -> (Integer, Integer)
quotRem__IntegralInteger a b = (P.quot a b, P.rem a b)
divMod__IntegralInteger a b = (P.div a b, P.mod a b)
(^) :: (P.Num a, P.Integral b) => a -> b -> a
x ^ n = if n == 0 then 1 else x P.* (x ^ (n - 1))

-- lists
index :: [a] -> Int -> a
index [] _ = P.errorWithoutStackTrace "Prelude.!!: index too large"
index (x:xs) n = if n == 0 then x else index xs (n - 1)
(!!) :: [a] -> Int -> a
xs !! n = if n < 0 then P.errorWithoutStackTrace "Prelude.!!: negative index" else index xs n
splitAt :: Int -> [a] -> ([a], [a])
splitAt n xs = (take n xs, drop n xs)
notElem :: (Foldable t, Eq a) => a -> t a -> Bool
notElem x t = all (P./= x) t
insert :: Ord a => a -> [a] -> [a]
insert x = insertBy P.compare x
sortBy :: (a -> a -> Ordering) -> [a] -> [a]
sortBy cmp = foldr (insertBy cmp) []
sort :: Ord a => [a] -> [a]
sort = sortBy P.compare
sortOn :: Ord b => (a -> b) -> [a] -> [a]
sortOn f = sortBy (\x y -> P.compare (f x) (f y))
(\\) :: Eq a => [a] -> [a] -> [a]
(\\) = foldl (\xs x -> delete x xs)
filterM :: Applicative m => (a -> m Bool) -> [a] -> m [a]
filterM p = foldr (\x -> A.liftA2 (\flg -> if flg then (x :) else \r -> r) (p x)) (pure [])
mapAndUnzipM :: Applicative m => (a -> m (b, c)) -> [a] -> m ([b], [c])
mapAndUnzipM f xs = fmap unzip (T.traverse f xs)
append__SemigroupList :: [a] -> [a] -> [a]
append__SemigroupList xs ys = xs ++ ys
mconcat__MonoidList :: [[a]] -> [a]
mconcat__MonoidList = concat

-- Control.Exception
catches :: IO a -> [E.Handler a] -> IO a
catches io handlers = E.catch io (\e -> catchesHandler handlers e)
catchesHandler :: [E.Handler a] -> SomeException -> IO a
catchesHandler handlers e = P.foldr tryHandler (E.throwIO e) handlers
  where tryHandler (E.Handler h) res = case E.fromException e of { Just e' -> h e'; Nothing -> res }

-- Control.Concurrent.QSem: the units that are free, and the gates of those who wait, the first ones in order and the
-- later ones the last first. A waiter that is killed fills its gate, or hands on the unit that it has got meanwhile.
type Waiters = (Int, [MVar ()], [MVar ()])

newQSem :: Int -> IO QSem
newQSem units = if units < 0 then P.fail "newQSem: Initial quantity must be non-negative" else C.newMVar (units, [], []) >>= \cell -> return (cellSemaphore cell)

waitQSem, signalQSem :: QSem -> IO ()
waitQSem semaphore = E.mask_ (C.takeMVar cell >>= \state -> case state of
  (units, early, late) ->
    if units == 0
      then C.newEmptyMVar >>= \gate -> C.putMVar cell (units, early, gate : late) >> (C.takeMVar gate `E.onException` E.uninterruptibleMask_ (leave gate))
      else C.putMVar cell (units - 1, early, late))
 where
  cell = semaphoreCell semaphore
  leave gate = C.takeMVar cell >>= \state -> C.tryPutMVar gate () >>= \waited -> (if waited then return state else signalOne state) >>= \after -> C.putMVar cell after
signalQSem semaphore = E.uninterruptibleMask_ (C.takeMVar cell >>= \state -> signalOne state >>= \after -> C.putMVar cell after)
 where
  cell = semaphoreCell semaphore

signalOne :: Waiters -> IO Waiters
signalOne state = case state of
  (units, early, late) -> if units == 0 then openOne early late else return (units + 1, early, late)

openOne :: [MVar ()] -> [MVar ()] -> IO Waiters
openOne early late = case early of
  gate : rest -> C.tryPutMVar gate () >>= \waited -> if waited then return (0, rest, late) else openOne rest late
  [] -> case late of
    [] -> return (1, [], [])
    _ -> openOne (reverse late) []

-- Control.Concurrent.QSemN: the same, where each waiter wants a number of units and the first one that wants more than
-- there are holds up the others.
type Wanters = (Int, [(Int, MVar ())], [(Int, MVar ())])

newQSemN :: Int -> IO QSemN
newQSemN units = if units < 0 then P.fail "newQSemN: Initial quantity must be non-negative" else C.newMVar (units, [], []) >>= \cell -> return (cellQuantity cell)

waitQSemN, signalQSemN :: QSemN -> Int -> IO ()
waitQSemN semaphore wanted = E.mask_ (E.uninterruptibleMask_ (C.takeMVar cell) >>= \state -> case state of
  (units, early, late) ->
    if units < wanted
      then C.newEmptyMVar >>= \gate -> C.putMVar cell (units, early, (wanted, gate) : late) >> (C.takeMVar gate `E.onException` E.uninterruptibleMask_ (leave gate))
      else C.putMVar cell (units - wanted, early, late))
 where
  cell = quantityCell semaphore
  leave gate = C.takeMVar cell >>= \state -> C.tryPutMVar gate () >>= \waited -> (if waited then return state else signalSome state wanted) >>= \after -> C.putMVar cell after
signalQSemN semaphore given = E.uninterruptibleMask_ (C.takeMVar cell >>= \state -> signalSome state given >>= \after -> C.putMVar cell after)
 where
  cell = quantityCell semaphore

signalSome :: Wanters -> Int -> IO Wanters
signalSome state given = case state of
  (units, early, late) -> openSome (units + given) early late

openSome :: Int -> [(Int, MVar ())] -> [(Int, MVar ())] -> IO Wanters
openSome units early late =
  if units == 0
    then return (0, early, late)
    else case early of
      [] -> case late of
        [] -> return (units, [], [])
        _ -> openSome units (reverse late) []
      (wanted, gate) : rest ->
        if units < wanted
          then C.tryTakeMVar gate >>= \left -> case left of
            Nothing -> return (units, early, late)
            Just _ -> C.putMVar gate () >> openSome units rest late
          else C.tryPutMVar gate () >>= \waited -> openSome (if waited then units - wanted else units) rest late
