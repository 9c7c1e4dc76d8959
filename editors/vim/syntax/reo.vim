" Vim syntax file
" Language: circuits and scripts of reo, docs/LANGUAGE.md

if exists("b:current_syntax")
  finish
endif

syntax case match

" No word is reserved: a keyword is one by its place, first in its line or behind the two nodes of a channel.
syntax match reoName /\<[A-Za-z_][A-Za-z0-9_]*\>/ contained
syntax match reoPort /^[ \t]*\zs\%(in\|out\)\>/ nextgroup=reoName skipwhite
syntax match reoChannel /^[ \t]*\zs\%(sync\|lossy\|drain\|fifo\|filter\|transform\)\>/ nextgroup=reoFrom skipwhite
syntax match reoFrom /\<[A-Za-z_][A-Za-z0-9_]*\>/ contained nextgroup=reoTo skipwhite
syntax match reoTo /\<[A-Za-z_][A-Za-z0-9_]*\>/ contained nextgroup=reoWord,reoOperator,reoNumber skipwhite
syntax match reoComponent /^[ \t]*\zscomponent\>/ nextgroup=reoName skipwhite
syntax match reoOperation /^[ \t]*\zs\%(put\|get\)\>/ nextgroup=reoName skipwhite
syntax keyword reoWord contained full nextgroup=reoNumber,reoText skipwhite
syntax keyword reoWord contained x mod is int text len starts not and or neg map nextgroup=reoWord,reoOperator,reoNumber,reoText skipwhite

syntax match reoOperator /->\|<=\|>=\|!=\|[<>=+*(){},]\|-\%([0-9]\)\@!/ nextgroup=reoWord,reoOperator,reoNumber,reoText skipwhite
syntax match reoNumber /-\=\<[0-9][A-Za-z0-9_]*/ nextgroup=reoWord,reoOperator contains=reoWrongNumber skipwhite
syntax match reoWrongNumber /-\=\<\%(0[A-Za-z0-9_]\+\|[1-9][0-9]*[A-Za-z_][A-Za-z0-9_]*\)\|-\<0\>/ contained
syntax region reoText start=/"/ skip=/\\./ end=/"/ end=/$/ oneline contains=reoEscape,reoWrongEscape nextgroup=reoWord,reoOperator skipwhite
syntax match reoEscape /\\["\\nt]/ contained
syntax match reoWrongEscape /\\[^"\\nt]/ contained
syntax match reoComment /#.*$/ contains=reoTodo
syntax keyword reoTodo contained TODO FIXME

highlight default link reoPort Statement
highlight default link reoChannel Type
highlight default link reoComponent Structure
highlight default link reoOperation Statement
highlight default link reoWord Keyword
highlight default link reoName Identifier
highlight default link reoFrom Identifier
highlight default link reoTo Identifier
highlight default link reoOperator Operator
highlight default link reoNumber Number
highlight default link reoWrongNumber Error
highlight default link reoText String
highlight default link reoEscape SpecialChar
highlight default link reoWrongEscape Error
highlight default link reoComment Comment
highlight default link reoTodo Todo

let b:current_syntax = "reo"
