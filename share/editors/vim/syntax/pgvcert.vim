" Vim syntax of certificates and saved guests: docs/FORMATS.md. They have no comments.
if exists('b:current_syntax')
  finish
endif
syntax case match
syntax match pgvcertFirst /\%1l^\%(pgcert [12]\|pghybrid 1\|pgguest 1\)$/
syntax match pgvcertFinding /^finding\ze \a\w* \l\+ / nextgroup=pgvcertName skipwhite
syntax match pgvcertName /\a\w*/ contained nextgroup=pgvcertKind skipwhite
syntax match pgvcertKind /\<\%(privileged\|control\|mode\|location\|bound\|ucontrol\|ulocation\|ubound\)\>/ contained nextgroup=pgvcertShown,pgvcertRefuted,pgvcertSpent skipwhite
syntax match pgvcertShown /\<shown$/ contained
syntax match pgvcertRefuted /\<refuted$/ contained
syntax match pgvcertSpent /\<spent \d\+$/ contained
syntax match pgvcertLog /^[sd]\ze /
syntax match pgvcertState /^\%(size\|psw\|steps\)\ze /
syntax match pgvcertMode /\%(^psw \)\@<=[su]\ze /
syntax match pgvcertPlace /^\d\+:/
syntax match pgvcertEnd /^end$/
highlight default link pgvcertFirst PreProc
highlight default link pgvcertFinding Statement
highlight default link pgvcertName Function
highlight default link pgvcertKind Type
highlight default link pgvcertShown WarningMsg
highlight default link pgvcertRefuted Constant
highlight default link pgvcertSpent Todo
highlight default link pgvcertLog Comment
highlight default link pgvcertState Identifier
highlight default link pgvcertMode Special
highlight default link pgvcertPlace Label
highlight default link pgvcertEnd Statement
let b:current_syntax = 'pgvcert'
