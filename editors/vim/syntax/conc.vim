" The syntax of scripts. Written by ./check --draw from the tables of docs/LANGUAGE.md.
if exists("b:current_syntax")
  finish
endif

syntax case match
syntax iskeyword @,48-57,_,192-255,'
syntax keyword concKeyword if then else case of let in
syntax keyword concType Int Bool Text ThreadId SomeException Maybe Either MVar IO Async
syntax keyword concConstructor True False Nothing Just Left Right ErrorCall ThreadKilled UserInterrupt DivideByZero Overflow
syntax keyword concFunction div mod not fst snd show
syntax keyword concAction return throwIO putStr putStrLn hPutStrLn stderr newMVar newEmptyMVar takeMVar putMVar readMVar tryTakeMVar tryPutMVar modifyMVar_ forkIO forkIOWithUnmask myThreadId throwTo killThread threadDelay clockMicros getMaskingState catch mask mask_ uninterruptibleMask uninterruptibleMask_ restore onException bracket finally timeout withAsync wait cancel race concurrently
syntax match concNumber /\<\d\+\>/
syntax match concSymbol /&&\|++\|->\|\/=\|::\|<-\|<=\|==\|>=\|||\|\*\|+\|-\|:\|<\|=\|>\|@/
syntax match concWrongEscape /\\./ contained
syntax match concEscape /\\["\\nt]/ contained
syntax region concText start=/"/ skip=/\\./ end=/"/ oneline contains=concEscape,concWrongEscape
syntax match concComment /--.*$/
syntax keyword concClaimWord contained always never sometimes terminates and has done uncaught deadlock stuck output errors
syntax match concClaim /^[ \t\r]*\zs--[ \t]*!.*$/ contains=concClaimWord,concText

highlight default link concKeyword Conditional
highlight default link concType Type
highlight default link concConstructor Constant
highlight default link concFunction Function
highlight default link concAction Statement
highlight default link concNumber Number
highlight default link concSymbol Operator
highlight default link concText String
highlight default link concEscape SpecialChar
highlight default link concWrongEscape Error
highlight default link concComment Comment
highlight default link concClaim SpecialComment
highlight default link concClaimWord PreProc

let b:current_syntax = "conc"
