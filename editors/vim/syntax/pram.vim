" Programs of a parallel random access machine, in work-time notation (pramc).
if exists("b:current_syntax")
  finish
endif

syntax case match
syntax iskeyword a-z,A-Z,48-57,_

syntax keyword pramHead rule procs begin end
syntax keyword pramDeclaration shared var local
syntax keyword pramConditional if then else
syntax keyword pramRepeat for to do pardo while
syntax keyword pramStatement print
syntax keyword pramOperator and or not div mod
" The rules are words of their own behind `rule` alone.
syntax match pramRule "\(\<rule\_s\+\)\@<=\(erew\|crew\|common\|priority\|sum\)\>"
syntax match pramSymbol ":=\|\.\.\|<>\|<=\|>=\|[-+*=<>]"
syntax match pramNumber "\<\d\+\>"
syntax match pramComment "#.*$" contains=@Spell

highlight default link pramHead Keyword
highlight default link pramDeclaration Type
highlight default link pramConditional Conditional
highlight default link pramRepeat Repeat
highlight default link pramStatement Statement
highlight default link pramOperator Operator
highlight default link pramRule Constant
highlight default link pramSymbol Operator
highlight default link pramNumber Number
highlight default link pramComment Comment

let b:current_syntax = "pram"
