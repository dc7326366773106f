# Completions of prem_time for bash: source this file, or install it as prem_time in bash-completion's folder.
_prem_time() {
  local word=${COMP_WORDS[COMP_CWORD]} names
  COMPREPLY=()
  if [ "$COMP_CWORD" -eq 1 ]; then
    compopt -o filenames 2>/dev/null
    COMPREPLY=($(compgen -f -X '!*.toml' -- "$word") $(compgen -d -- "$word"))
    return
  fi
  [[ $word == *=* || ${COMP_WORDS[COMP_CWORD-1]} == = ]] && return
  # the names of the set's devices: those behind the first [[device]]
  names=$(sed -n '/^\[\[device\]\]/,$ s/^ *name *= *"\([^"]*\)".*/\1=/p' "${COMP_WORDS[1]}" 2>/dev/null)
  compopt -o nospace 2>/dev/null
  COMPREPLY=($(compgen -W "$names" -- "$word"))
}
complete -F _prem_time prem_time ./prem_time
