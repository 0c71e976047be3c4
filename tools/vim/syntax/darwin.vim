" Descriptions in Darwin.

if exists("b:current_syntax")
  finish
endif

syntax case match

syntax keyword darwinDeclaration component
syntax keyword darwinService provide require
syntax keyword darwinStatement inst array bind
syntax keyword darwinRepeat forall
syntax keyword darwinConditional when
syntax keyword darwinOperator and or
syntax keyword darwinType int
syntax keyword darwinTodo contained TODO FIXME

syntax match darwinName "\<[A-Za-z_][A-Za-z0-9_]*\>"
syntax match darwinNumber "\<[0-9]\+\>"
syntax match darwinSign "--\|\.\.\|<=\|>=\|==\|!=\|[-+*/%<>]"
" behind `component`, and in an entry behind its `:`
syntax match darwinComponent "\(\<component\s\+\)\@<=[A-Za-z_][A-Za-z0-9_]*"
syntax match darwinComponent "\(:\s*\)\@<=[A-Za-z_][A-Za-z0-9_]*\ze\s*[(;]"

" a comment ends at the first */ behind the whole /*, and holds no other
syntax region darwinComment start="//" end="$" contains=darwinTodo
syntax region darwinComment start="/\*" end="\*/" contains=darwinTodo

highlight default link darwinDeclaration Structure
highlight default link darwinService StorageClass
highlight default link darwinStatement Statement
highlight default link darwinRepeat Repeat
highlight default link darwinConditional Conditional
highlight default link darwinOperator Operator
highlight default link darwinSign Operator
highlight default link darwinType Type
highlight default link darwinComponent Type
highlight default link darwinNumber Number
highlight default link darwinComment Comment
highlight default link darwinTodo Todo

let b:current_syntax = "darwin"
