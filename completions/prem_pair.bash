# Completions of prem_pair for bash: source this file, or install it as prem_pair in bash-completion's folder.
_prem_pair() {
  local word=${COMP_WORDS[COMP_CWORD]}
  COMPREPLY=()
  compopt -o filenames 2>/dev/null
  case $COMP_CWORD in
    1 | 2) COMPREPLY=($(compgen -f -X '!*.toml' -- "$word") $(compgen -d -- "$word")) ;;
    3 | 4) COMPREPLY=($(compgen -f -X '!*.run' -- "$word") $(compgen -d -- "$word")) ;;
    5) COMPREPLY=($(compgen -W "--cycles --intervals" -- "$word")) ;;
    7) [ "${COMP_WORDS[5]}" = --cycles ] && COMPREPLY=($(compgen -W "--intervals" -- "$word")) ;;
  esac
}
complete -F _prem_pair prem_pair ./prem_pair
