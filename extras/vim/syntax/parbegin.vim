" Vim syntax file for parbegin texts. To install: copy the folders syntax and ftdetect into ~/.vim.
if exists("b:current_syntax")
  finish
endif

syntax case match

syntax keyword parbeginStatement skip print hold of
syntax keyword parbeginConditional if then else fi
syntax keyword parbeginRepeat while do od
syntax keyword parbeginParallel parbegin parend
syntax keyword parbeginBlock begin end
syntax keyword parbeginDeclaration process resource integer
syntax keyword parbeginOperatorWord and or not div mod
syntax keyword parbeginTodo contained TODO FIXME NOTE

syntax match parbeginOperator ":=\|<>\|<=\|>=\|[-+*=<>]"
syntax match parbeginName "\<\a\w*\>" contains=NONE
syntax match parbeginNumber "\d\+"
syntax match parbeginParts "^%%$"
syntax match parbeginPick "^\a\w*\.\d\+ \d\+$"
syntax match parbeginComment "//.*$" contains=parbeginTodo

highlight default link parbeginStatement Statement
highlight default link parbeginConditional Conditional
highlight default link parbeginRepeat Repeat
highlight default link parbeginParallel Structure
highlight default link parbeginBlock Keyword
highlight default link parbeginDeclaration Type
highlight default link parbeginOperatorWord Operator
highlight default link parbeginOperator Operator
highlight default link parbeginNumber Number
highlight default link parbeginParts PreProc
highlight default link parbeginPick PreProc
highlight default link parbeginComment Comment
highlight default link parbeginTodo Todo

let b:current_syntax = "parbegin"
