# Completions of prem_wave for bash: source this file, or install it as prem_wave in bash-completion's folder.
_prem_wave() {
  local word=${COMP_WORDS[COMP_CWORD]}
  COMPREPLY=()
  compopt -o filenames 2>/dev/null
  case $COMP_CWORD in
    1) COMPREPLY=($(compgen -f -X '!*.toml' -- "$word") $(compgen -d -- "$word")) ;;
    2) COMPREPLY=($(compgen -f -X '!*.run' -- "$word") $(compgen -d -- "$word")) ;;
    3) COMPREPLY=($(compgen -W "--from --to" -- "$word")) ;;
    5) [ "${COMP_WORDS[3]}" = --from ] && COMPREPLY=($(compgen -W "--to" -- "$word")) ;;
  esac
}
complete -F _prem_wave prem_wave ./prem_wave
