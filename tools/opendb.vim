" Vim syntax of opendb's scripts. A word that no script can have in its place is shown as an error; so is a byte outside
" 0x20 to 0x7E. What needs a count or another line, as whether a worker is declared, isn't seen.
" To use it: :source tools/opendb.vim, or as a file of ~/.vim/syntax with `set syntax=opendb`.
if exists("b:current_syntax")
  finish
endif
syntax clear
syntax case match

" a line that isn't matched below is wrong
syntax match opendbError /^ *[^ #].*$/

syntax match opendbComment /^ *#.*$/ contains=opendbByte
syntax match opendbByte /[^ -~]/ contained containedin=ALL

" the lines that declare, and those that begin a phase
syntax match opendbWorker /^ *worker\( \+\d\{1,20}\)\{4}\( \+[^ ]\+\)\{2}\( \+old\)\? *$/ contains=opendbDeclares,opendbOld
syntax match opendbFile /^ *file\( \+\d\{1,20}\)\{3}\( \+[^ ]\+\)\{2} *$/ contains=opendbDeclares
syntax match opendbPhase /^ *phase \+\d\{1,20} *$/ contains=opendbDeclares,opendbNumber
syntax match opendbDeclares /^ *\(worker\|file\|phase\)/ contained
syntax match opendbOld / old *$/ contained

" calls: each with its form, and perhaps a stop behind it
syntax match opendbCall /^ *\d\{1,20} \+open \+\d\{1,20} \+0x\x\{1,8} \+\(-\|r\|w\|d\|rw\|rd\|wd\|rwd\)\( \+\(lease=\d\{1,20}:\(-\|R\|RH\|RW\|RWH\)\|durable=\d\{1,20}\|overwrite\|delete\)\)\{,4}\( \+!\(take\|intent\|commit\|store\|release\)\)\? *$/ contains=@opendbParts,opendbShare
syntax match opendbCall /^ *\d\{1,20} \+\(recv\|disconnect\|scavenge\|tidy\)\( \+!\(take\|intent\|commit\|store\|release\)\)\? *$/ contains=@opendbParts
syntax match opendbCall /^ *\d\{1,20} \+\(close\|gunlock\) \+\d\{1,20}\( \+!\(take\|intent\|commit\|store\|release\)\)\? *$/ contains=@opendbParts
syntax match opendbCall /^ *\d\{1,20} \+ack \+\d\{1,20} \+\(-\|R\|RH\|RW\|RWH\)\( \+!\(take\|intent\|commit\|store\|release\)\)\? *$/ contains=@opendbParts,opendbState
syntax match opendbCall /^ *\d\{1,20} \+lock\( \+\d\{1,20}\)\{3} \+[sx] \+\(now\|wait\)\( \+!\(take\|intent\|commit\|store\|release\)\)\? *$/ contains=@opendbParts,opendbMode
syntax match opendbCall /^ *\d\{1,20} \+\(unlock\|read\|write\|reconnect\)\( \+\d\{1,20}\)\{3}\( \+!\(take\|intent\|commit\|store\|release\)\)\? *$/ contains=@opendbParts
syntax match opendbCall /^ *\d\{1,20} \+glock \+\d\{1,20} \+[rw] \+\(now\|wait\)\( \+!\(take\|intent\|commit\|store\|release\)\)\? *$/ contains=@opendbParts,opendbMode
syntax match opendbCall /^ *\d\{1,20} \+delete \+\d\{1,20} \+\(on\|off\)\( \+!\(take\|intent\|commit\|store\|release\)\)\? *$/ contains=@opendbParts,opendbMode
syntax match opendbCall /^ *\d\{1,20} \+status\( \+-[SLB]\)\{,3}\( \+!\(take\|intent\|commit\|store\|release\)\)\? *$/ contains=@opendbParts,opendbFlag

" what a call's line is made of
syntax cluster opendbParts contains=opendbWord,opendbNumber,opendbAccess,opendbOption,opendbStop
syntax match opendbNumber / \zs\d\+\ze\( \|$\)/ contained
syntax match opendbAccess / \zs0x\x\{1,8}\ze / contained
syntax match opendbShare /\( 0x\x\+ \+\)\@<=\(-\|r\|w\|d\|rw\|rd\|wd\|rwd\)\ze\( \|$\)/ contained
syntax match opendbOption / \zs\(lease=\d\+:\(-\|R\|RH\|RW\|RWH\)\|durable=\d\+\|overwrite\|delete\)\ze\( \|$\)/ contained contains=opendbState
syntax match opendbWord /^ *\d\+ \+\zs\(open\|close\|ack\|lock\|unlock\|read\|write\|glock\|gunlock\|recv\|disconnect\|reconnect\|scavenge\|tidy\|status\|delete\)\ze\( \|$\)/ contained
syntax match opendbState /:\zs\(-\|RWH\|RW\|RH\|R\)\ze\( \|$\)/ contained
syntax match opendbState / \zs\(-\|RWH\|RW\|RH\|R\)\ze\( \|$\)/ contained
syntax match opendbMode / \zs\([sxrw]\|now\|wait\|on\|off\)\ze\( \|$\)/ contained
syntax match opendbFlag / \zs-[SLB]\ze\( \|$\)/ contained
syntax match opendbStop / \zs!\(take\|intent\|commit\|store\|release\)\ze *$/ contained

highlight default link opendbComment Comment
highlight default link opendbError Error
highlight default link opendbByte Error
highlight default link opendbDeclares PreProc
highlight default link opendbOld Keyword
highlight default link opendbWord Statement
highlight default link opendbNumber Number
highlight default link opendbAccess Number
highlight default link opendbShare Type
highlight default link opendbState Type
highlight default link opendbMode Keyword
highlight default link opendbFlag Keyword
highlight default link opendbOption Identifier
highlight default link opendbStop Special

let b:current_syntax = "opendb"
