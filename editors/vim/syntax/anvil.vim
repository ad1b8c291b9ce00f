" Keywords, literals and marks of docs/language.md. checks/editors compares the lists.
if exists('b:current_syntax')
  finish
endif

syntax keyword anvilDeclaration chan proc reg logic
syntax keyword anvilSide left right
syntax keyword anvilRepeat loop
syntax keyword anvilAct let set send recv cycle
syntax keyword anvilConditional if else
syntax keyword anvilFunction shl shr cat

syntax match anvilMark /\V{\|}\|(\|)\|[\|]\|,\|;\|:=\|:\|==\|=\|.\|@\|#\|?\|>>\|~\|+\|-\|*\|&\||\|^\|!=\|<=\|<\|>=\|>/
syntax match anvilNumber /\<\d\+\>/
syntax match anvilNumber /\<\d\+'\%(d\d\+\|h\x\+\|b[01]\+\)\>/
syntax match anvilComment /\/\/.*/ contains=anvilTodo
syntax keyword anvilTodo TODO FIXME contained

highlight default link anvilDeclaration Structure
highlight default link anvilSide StorageClass
highlight default link anvilRepeat Repeat
highlight default link anvilAct Statement
highlight default link anvilConditional Conditional
highlight default link anvilFunction Function
highlight default link anvilMark Operator
highlight default link anvilNumber Number
highlight default link anvilComment Comment
highlight default link anvilTodo Todo

let b:current_syntax = 'anvil'
