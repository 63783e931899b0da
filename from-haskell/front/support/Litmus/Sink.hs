-- | A place that a handle writes to: the bytes are kept in memory.
module Litmus.Sink
  ( Sink
  , newSink
  , sinkHandle
  , sinkBytes
  )
where

import Data.ByteString (ByteString)
import qualified Data.ByteString as ByteString
import Data.IORef (IORef, atomicModifyIORef', newIORef, readIORef)
import Foreign.Ptr (castPtr)
import GHC.IO.Buffer (newByteBuffer)
import GHC.IO.BufferedIO (BufferedIO (..), readBuf, readBufNonBlocking, writeBuf, writeBufNonBlocking)
import GHC.IO.Device (IODevice (..), IODeviceType (..), RawIO (..))
import GHC.IO.Encoding (utf8)
import GHC.IO.Handle (noNewlineTranslation)
import GHC.IO.Handle.Internals (mkFileHandle)
import System.IO (Handle, IOMode (..))

-- | What was written, the last first.
newtype Sink = Sink (IORef [ByteString])

newSink :: IO Sink
newSink = Sink <$> newIORef []

-- | A new handle that writes there.
sinkHandle :: Sink -> IO Handle
sinkHandle sink = mkFileHandle sink "output of a run" WriteMode (Just utf8) noNewlineTranslation

-- | What was written up to now.
sinkBytes :: Sink -> IO [ByteString]
sinkBytes (Sink written) = reverse <$> readIORef written

instance RawIO Sink where
  read _ _ _ _ = return 0
  readNonBlocking _ _ _ _ = return Nothing
  write (Sink written) from _ count = do
    bytes <- ByteString.packCStringLen (castPtr from, count)
    atomicModifyIORef' written (\there -> (bytes : there, ()))
  writeNonBlocking sink from offset count = write sink from offset count >> return count

instance IODevice Sink where
  ready _ _ _ = return True
  close _ = return ()
  devType _ = return Stream

instance BufferedIO Sink where
  newBuffer _ = newByteBuffer 8192
  fillReadBuffer = readBuf
  fillReadBuffer0 = readBufNonBlocking
  flushWriteBuffer = writeBuf
  flushWriteBuffer0 = writeBufNonBlocking
