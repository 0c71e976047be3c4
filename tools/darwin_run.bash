# Completion of darwin_run's words for bash: `source tools/darwin_run.bash`, or see tools/install. Commands come from the program's
# help, components from the description that the words name, and else files.
_darwin_run_components() {
  sed -n 's/.*\<component  *\([A-Za-z_][A-Za-z0-9_]*\).*/\1/p' "$1" 2>/dev/null
}

# descriptions, texts of graphs, and folders
_darwin_run_files() {
  compgen -f -X '!*.dar' -- "$1"
  compgen -f -X '!*.graph' -- "$1"
  compgen -d -S / -- "$1"
}

# the words of a change: its first file is given, and then the words behind it before the one that is completed
_darwin_run_change() {
  local file=$1 word=$2 first=$3 at
  shift 2
  for at in "$@"; do
    shift
    [[ $at == -- ]] && break
  done
  if [[ $at != -- ]]; then
    compgen -W "$(_darwin_run_components "$file")"$'\n--' -- "$word"
  elif [[ $# == 0 ]]; then
    [[ $first == -- ]] || compgen -W "$(_darwin_run_components "$file")" -- "$word"
    _darwin_run_files "$word"
  elif [[ $# == 1 && $1 == *[./]* ]]; then
    compgen -W "$(_darwin_run_components "$1")" -- "$word"
  fi
}

_darwin_run() {
  local word=${COMP_WORDS[COMP_CWORD]} command=${COMP_WORDS[1]}
  local IFS=$'\n'
  case $COMP_CWORD:$command in
    1:*) COMPREPLY=($(compgen -W "$("${COMP_WORDS[0]}" --help 2>/dev/null | awk '$1 == "darwin_run" { print $2 }')"$'\nhelp\n-h' -- "$word")) ;;
    2:-* | 2:help) COMPREPLY=() ;;
    2:*) [[ $word == -* ]] && COMPREPLY=($(compgen -W --help -- "$word")) && return
      case $command in
        flat | plan | parts | roll | replay) COMPREPLY=($(_darwin_run_files "$word")) ;;
        big | apply) COMPREPLY=() ;;
        *) COMPREPLY=($(compgen -f -- "$word")) ;;
      esac ;;
    3:apply) COMPREPLY=($(_darwin_run_files "$word")) ;;
    3:flat) COMPREPLY=($(compgen -W "$(_darwin_run_components "${COMP_WORDS[2]}")" -- "$word")) ;;
    *:flat | *:big) COMPREPLY=() ;;
    3:roll | 4:roll) COMPREPLY=() ;;
    3:live) COMPREPLY=($(compgen -W --workers -- "$word")) ;;
    4:live) COMPREPLY=($(compgen -W $'1\n2\n4\n8' -- "$word")) ;;
    5:live) COMPREPLY=($(compgen -W --watch -- "$word")) ;;
    6:live) COMPREPLY=($(compgen -W $'1\n2\n3\n4' -- "$word")) ;;
    *:plan | *:parts) COMPREPLY=($(_darwin_run_change "${COMP_WORDS[2]}" "$word" "${COMP_WORDS[@]:3:COMP_CWORD-3}")) ;;
    *:roll) COMPREPLY=($(_darwin_run_change "${COMP_WORDS[2]}" "$word" "${COMP_WORDS[@]:5:COMP_CWORD-5}")) ;;
    *:apply) COMPREPLY=($(_darwin_run_change "${COMP_WORDS[3]}" "$word" "${COMP_WORDS[@]:4:COMP_CWORD-4}")) ;;
    *) COMPREPLY=($(compgen -f -- "$word")) ;;
  esac
}

complete -o filenames -F _darwin_run darwin_run
