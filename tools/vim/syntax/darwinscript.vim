" Scripts of changes, and files of events.

if exists("b:current_syntax")
  finish
endif

syntax case match

" a line begins with what it says
syntax match darwinScriptStatement "^\s*\(use\|start\|run\|change\|finish\|show\|end\)\>"
syntax match darwinScriptEvent "^\s*\(begin\|call\|take\|more\|ask\|hear\|give\|miss\)\>"
syntax match darwinScriptEvent "^\s*end\ze\s\+\d"
syntax match darwinScriptChange "^\s*\(close\|reopen\|make\|link\|unlink\|remove\)\>"
syntax match darwinScriptWord "\<\(to\|within\|moving\|from\)\>"
syntax match darwinScriptComponent "\(^\s*start\s\+\|^\s*change\s\+to\s\+\)\@<=[A-Za-z_][A-Za-z0-9_]*"
syntax match darwinScriptFile "\(^\s*use\s\+\)\@<=\S\+"
syntax match darwinScriptNumber "[A-Za-z_0-9\[]\@1<!-\?\<\d\+\>"
syntax match darwinScriptArrow "->"
syntax match darwinScriptComment "^\s*#.*$" contains=darwinScriptTodo
syntax keyword darwinScriptTodo contained TODO FIXME

highlight default link darwinScriptStatement Statement
highlight default link darwinScriptEvent Keyword
highlight default link darwinScriptChange Keyword
highlight default link darwinScriptWord Keyword
highlight default link darwinScriptComponent Type
highlight default link darwinScriptFile String
highlight default link darwinScriptNumber Number
highlight default link darwinScriptArrow Operator
highlight default link darwinScriptComment Comment
highlight default link darwinScriptTodo Todo

let b:current_syntax = "darwinscript"
