{-# LANGUAGE NoImplicitPrelude #-}
{-# LANGUAGE PackageImports #-}
{-# LANGUAGE Trustworthy #-}

-- | Stands in front of base's module: what is printed goes to the run.
module System.IO
  ( module Base
  , hFlush
  , hGetBuffering
  , hPrint
  , hPutChar
  , hPutStr
  , hPutStrLn
  , hSetBuffering
  , print
  , putChar
  , putStr
  , putStrLn
  ) where

import Litmus.Programs (handleOf, point)
import "base" Prelude (Char, Show (..), String, (.), (>>), (>>=))
import "base" System.IO as Base hiding
  (hFlush, hGetBuffering, hPrint, hPutChar, hPutStr, hPutStrLn, hSetBuffering, print, putChar, putStr, putStrLn)
import qualified "base" System.IO as Original

at :: Handle -> (Handle -> IO a) -> IO a
at handle action = point >> handleOf handle >>= action

hPutStr, hPutStrLn :: Handle -> String -> IO ()
hPutStr handle text = at handle (\h -> Original.hPutStr h text)
hPutStrLn handle text = at handle (\h -> Original.hPutStrLn h text)

hPutChar :: Handle -> Char -> IO ()
hPutChar handle c = at handle (\h -> Original.hPutChar h c)

hPrint :: Show a => Handle -> a -> IO ()
hPrint handle = hPutStrLn handle . show

hFlush :: Handle -> IO ()
hFlush handle = at handle Original.hFlush

hSetBuffering :: Handle -> BufferMode -> IO ()
hSetBuffering handle mode = at handle (\h -> Original.hSetBuffering h mode)

hGetBuffering :: Handle -> IO BufferMode
hGetBuffering handle = at handle Original.hGetBuffering

putStr, putStrLn :: String -> IO ()
putStr = hPutStr stdout
putStrLn = hPutStrLn stdout

putChar :: Char -> IO ()
putChar = hPutChar stdout

print :: Show a => a -> IO ()
print = putStrLn . show
