# Completions of prem_resp for bash: source this file, or install it as prem_resp in bash-completion's folder.
_prem_resp() {
  local word=${COMP_WORDS[COMP_CWORD]}
  COMPREPLY=()
  compopt -o filenames 2>/dev/null
  [ "$COMP_CWORD" -eq 1 ] && COMPREPLY=($(compgen -f -X '!*.toml' -- "$word") $(compgen -d -- "$word"))
}
complete -F _prem_resp prem_resp ./prem_resp
