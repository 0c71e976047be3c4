" Scripts and files of events: comments, and `:make`, which runs a script or goes to the fault.

if exists("b:did_ftplugin")
  finish
endif
let b:did_ftplugin = 1

setlocal commentstring=#\ %s comments=:#
compiler darwin_run
let &l:makeprg = g:darwin_run . " step %:S"
let b:undo_ftplugin = "setlocal commentstring< comments< makeprg< errorformat<"
