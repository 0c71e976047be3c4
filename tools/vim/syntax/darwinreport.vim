" Reports of runs.

if exists("b:current_syntax")
  finish
endif

syntax case match

syntax match darwinReportSection "^\(report\|start\|change\|run\|finish\|show\|stop\)\>"
syntax match darwinReportGood "^commit$"
syntax match darwinReportBad "^\(abandon\|skipped\)$"
syntax match darwinReportBad "^\(pending\|open\|unfinished\)\>"
syntax match darwinReportBad "^status [1-9].*$"
syntax match darwinReportGood "^status 0$"
syntax match darwinReportChange "^\(make\|link\|unlink\|remove\|close\|reopen\|drained\)\>"
syntax match darwinReportLog "^log\>.*$"
syntax match darwinReportEvent "^\(begin\|call\|take\|more\|ask\|hear\|give\|end\|miss\)\>"
syntax match darwinReportState "^\(state\|moved\)\>"
syntax match darwinReportGraph "^\(node\|port\)\>"
syntax match darwinReportKind "\<[a-z]\+\ze([0-9]*)"
syntax match darwinReportFrom " from "
syntax match darwinReportNumber "\( \)\@1<=\d\+\>"

highlight default link darwinReportSection Statement
highlight default link darwinReportGood DiffAdd
highlight default link darwinReportBad ErrorMsg
highlight default link darwinReportChange Keyword
highlight default link darwinReportLog Title
highlight default link darwinReportEvent Identifier
highlight default link darwinReportState PreProc
highlight default link darwinReportGraph Keyword
highlight default link darwinReportKind Type
highlight default link darwinReportFrom Keyword
highlight default link darwinReportNumber Number

let b:current_syntax = "darwinreport"
