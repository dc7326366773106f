# Completions of prem_lint for bash: source this file, or install it as prem_lint in bash-completion's folder.
_prem_lint() {
  local word=${COMP_WORDS[COMP_CWORD]}
  COMPREPLY=()
  compopt -o filenames 2>/dev/null
  [ "$COMP_CWORD" -eq 1 ] && COMPREPLY=($(compgen -f -X '!*.toml' -- "$word") $(compgen -d -- "$word"))
}
complete -F _prem_lint prem_lint ./prem_lint
