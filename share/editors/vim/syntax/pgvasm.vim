" Vim syntax of sources: docs/ASSEMBLER.md.
if exists('b:current_syntax')
  finish
endif
syntax case match
syntax match pgvasmInstr /^\s*\zs\a\w*\>/
syntax match pgvasmField /\<\l=/me=e-1 nextgroup=pgvasmEqual
syntax match pgvasmEqual /=/ contained nextgroup=pgvasmNumber,pgvasmUse
syntax match pgvasmNumber /\<\d\+\>/ contained
syntax match pgvasmUse /\<\a\w*\>/ contained
syntax match pgvasmPlace /^\s*\zs@\d\{1,7}\ze\s*\%(#.*\)\?$/
syntax match pgvasmLabel /^\s*\zs\a\w*:\ze\s*\%(#.*\)\?$/
syntax match pgvasmWord /^\s*\zsword\>/ nextgroup=pgvasmHex skipwhite
syntax match pgvasmHex /\<\x\+\>/ contained
syntax match pgvasmComment /#.*/ contains=@Spell
highlight default link pgvasmComment Comment
highlight default link pgvasmInstr Statement
highlight default link pgvasmField Identifier
highlight default link pgvasmEqual Operator
highlight default link pgvasmNumber Number
highlight default link pgvasmUse Label
highlight default link pgvasmPlace PreProc
highlight default link pgvasmLabel Label
highlight default link pgvasmWord Keyword
highlight default link pgvasmHex Number
let b:current_syntax = 'pgvasm'
setlocal commentstring=#\ %s
