" Descriptions: comments, and `:make NAME ARGUMENTS`, which shows the graph of a component or goes to the fault.

if exists("b:did_ftplugin")
  finish
endif
let b:did_ftplugin = 1

setlocal commentstring=//\ %s comments=s1:/*,mb:*,ex:*/,://
compiler darwin_run
let &l:makeprg = g:darwin_run . " flat %:S $*"
let b:undo_ftplugin = "setlocal commentstring< comments< makeprg< errorformat<"
