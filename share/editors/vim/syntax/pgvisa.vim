" Vim syntax of descriptions: docs/LANGUAGE.md, Tokens.
if exists('b:current_syntax')
  finish
endif
syntax case match
syntax match pgvisaComment /#.*/ contains=@Spell
syntax match pgvisaName /\<\a\w*\>/
syntax match pgvisaFault /\<\a\w\{32,}\>/
syntax match pgvisaNumber /\<\%(\d\+\|0x\x\{1,16}\)\>/
syntax match pgvisaFault /\<\d\w*\>/ contains=pgvisaNumber
syntax match pgvisaPattern /"[01.a-z_]*"/ contains=pgvisaField
syntax match pgvisaField /\l/ contained
syntax match pgvisaFault /"[01.a-z_]*\_[^01.a-z_"]/me=e-1
syntax match pgvisaSign /[-~+*&|^=<]\|>>\|<</
syntax match pgvisaFault /\%(>>\)\@<!>\%(>\)\@!/
syntax keyword pgvisaHead machine word address size causes
syntax keyword pgvisaInstr instr nextgroup=pgvisaNamed skipwhite
syntax match pgvisaNamed /\<\a\w\{0,31}\>/ contained
syntax keyword pgvisaStatement let if else trap
syntax keyword pgvisaFunction cat cut ext sext sel
syntax keyword pgvisaRegister mem pc mode rel bound
syntax sync minlines=1
highlight default link pgvisaComment Comment
highlight default link pgvisaNumber Number
highlight default link pgvisaPattern String
highlight default link pgvisaField Special
highlight default link pgvisaSign Operator
highlight default link pgvisaHead Structure
highlight default link pgvisaInstr Keyword
highlight default link pgvisaNamed Function
highlight default link pgvisaStatement Statement
highlight default link pgvisaFunction Function
highlight default link pgvisaRegister Identifier
highlight default link pgvisaFault Error
let b:current_syntax = 'pgvisa'
setlocal commentstring=#\ %s
