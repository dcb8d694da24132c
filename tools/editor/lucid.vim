" Vim syntax file of Lucid (Copperfinch), made by tools/editor/make.
" Put it into ~/.vim/syntax, and this line into ~/.vim/ftdetect/lucid.vim: au BufRead,BufNewFile *.luc set filetype=lucid
if exists("b:current_syntax") | finish | endif
syn keyword lucidStructure const global memop event handle fun group
syn keyword lucidStatement if else return match with generate
syn keyword lucidType int bool void
syn keyword lucidConstant true false SELF
syn keyword lucidFunction printf hash Array Event Sys
syn match lucidOperator "[-+&|^~!<>=]"
syn match lucidNumber "\<\(0x\x\+\|\d\+\)\>"
syn match lucidPlaceholder "%d" contained
syn match lucidString '"[ !#-\[\]-~]*"' contains=lucidPlaceholder
syn match lucidComment "//.*$"
syn region lucidComment start="/\*" end="\*/"
hi def link lucidStructure Structure
hi def link lucidStatement Statement
hi def link lucidType Type
hi def link lucidConstant Constant
hi def link lucidFunction Function
hi def link lucidOperator Operator
hi def link lucidNumber Number
hi def link lucidString String
hi def link lucidComment Comment
hi def link lucidPlaceholder Special
let b:current_syntax = "lucid"
