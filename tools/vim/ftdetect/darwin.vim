" Descriptions by their names; scripts, files of events and reports, which are .txt, by what they say first.

function! s:DarwinText() abort
  if getline(1) =~# '^report [12]$'
    setlocal filetype=darwinreport
    return
  endif
  let l:first = matchstr(getline(1, 100), '^\s*[^# \t\r]')
  if l:first =~# '^\s*use\s\+\S\+\s*$' || l:first =~# '^\s*start\s\+[A-Za-z_][A-Za-z0-9_]*\s*\((.*)\)\?\s*$'
    setlocal filetype=darwinscript
  endif
endfunction

autocmd BufRead,BufNewFile *.dar setlocal filetype=darwin
autocmd BufRead *.txt,*.report call s:DarwinText()
