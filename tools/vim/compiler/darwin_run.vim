" What darwin_run refuses: a description or a script with a place, a line or neither, or a file that can't be read. Where this folder stands
" in the tools, `explain` beside it runs the program, and names the place of a name too: below the line that refuses stands FILE:LINE:COLUMN.

if exists("current_compiler")
  finish
endif
let current_compiler = "darwin_run"

let s:explain = fnamemodify(resolve(expand("<sfile>:p")), ":h:h:h") . "/explain"
let g:darwin_run = executable(s:explain) ? fnameescape(s:explain) : "darwin_run"
execute "CompilerSet makeprg=" . escape(g:darwin_run, ' \') . "\\ $*"
if executable(s:explain)
  CompilerSet errorformat=
      \description\ %f:\ %m\ %l:%c,
      \%Escript\ %f:\ %m\ %l,
      \%Edescription\ %.%#:\ %m,
      \%Escript\ %.%#:\ %m,
      \%mfault\ %f,
      \%Z%f:%l:%c,
      \%Z%f:%l,
      \%-C%.%#,
      \%-G%.%#
else
  CompilerSet errorformat=
      \description\ %f:\ %m\ %l:%c,
      \script\ %f:\ %m\ %l,
      \description\ %f:\ %m,
      \script\ %f:\ %m,
      \%mfault\ %f,
      \%-G%.%#
endif
