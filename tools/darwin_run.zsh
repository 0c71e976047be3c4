#compdef darwin_run
# Completion of darwin_run's words for zsh: stands as _darwin_run in a folder of `fpath`, where tools/install leaves it. Commands come
# from the program's help, components from the description that the words name, and else files.
_darwin_run_components() {
  sed -n 's/.*\<component  *\([A-Za-z_][A-Za-z0-9_]*\).*/\1/p' "${(Q)1}" 2>/dev/null
}

# descriptions and texts of graphs
_darwin_run_files() {
  _files -g '*.(dar|graph)'
}

# the words of a change: which word is its first file, and which the first behind it but numbers
_darwin_run_change() {
  local file=$words[$1] cut
  local -a said
  said=(${words[$2,CURRENT-1]})
  cut=${said[(i)--]}
  if (( cut > $#said )); then
    compadd -- ${(f)"$(_darwin_run_components $file)"} --
  elif (( cut == $#said )); then
    (( cut > 1 )) && compadd -- ${(f)"$(_darwin_run_components $file)"}
    _darwin_run_files
  elif (( cut == $#said - 1 )) && [[ $said[-1] == *[./]* ]]; then
    compadd -- ${(f)"$(_darwin_run_components $said[-1])"}
  fi
}

_darwin_run() {
  local command=$words[2] file=$words[3]
  case $((CURRENT - 1)):$command in
    1:*) compadd -- ${(f)"$(${(Q)words[1]} --help 2>/dev/null | awk '$1 == "darwin_run" { print $2 }')"} ;;
    2:apply) ;;
    2:flat | 2:plan | 2:parts | 2:roll | 2:replay | 3:apply) _darwin_run_files ;;
    3:flat) compadd -- ${(f)"$(_darwin_run_components $file)"} ;;
    *:flat | *:big | 3:roll | 4:roll) ;;
    3:live) compadd -- --workers ;;
    4:live) compadd -- 1 2 4 8 ;;
    5:live) compadd -- --watch ;;
    6:live) compadd -- 1 2 3 4 ;;
    *:plan | *:parts) _darwin_run_change 3 4 ;;
    *:roll) _darwin_run_change 3 6 ;;
    *:apply) _darwin_run_change 4 5 ;;
    *) _files ;;
  esac
}

(( $+functions[compdef] )) && compdef _darwin_run darwin_run
[[ $funcstack[1] == _darwin_run ]] && _darwin_run "$@"
true
