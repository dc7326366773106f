# Completions of prem_chart for bash: source this file, or install it as prem_chart in bash-completion's folder.
_prem_chart() {
  local word=${COMP_WORDS[COMP_CWORD]}
  COMPREPLY=()
  local names
  case $COMP_CWORD in
    1)
      compopt -o filenames 2>/dev/null
      COMPREPLY=($(compgen -f -X '!*.toml' -- "$word") $(compgen -d -- "$word"))
      return
      ;;
    2)
      compopt -o filenames 2>/dev/null
      COMPREPLY=($(compgen -f -X '!*.run' -- "$word") $(compgen -d -- "$word"))
      return
      ;;
  esac
  [[ $word == *=* || ${COMP_WORDS[COMP_CWORD-1]} == = ]] && return
  case ${COMP_WORDS[COMP_CWORD-1]} in
    --from | --to) ;;
    --every)
      # the names of the set's devices: those behind the first [[device]]
      names=$(sed -n '/^\[\[device\]\]/,$ s/^ *name *= *"\([^"]*\)".*/\1=/p' "${COMP_WORDS[1]}" 2>/dev/null)
      compopt -o nospace 2>/dev/null
      COMPREPLY=($(compgen -W "$names" -- "$word"))
      ;;
    *) COMPREPLY=($(compgen -W "--from --to --every" -- "$word")) ;;
  esac
}
complete -F _prem_chart prem_chart ./prem_chart
