# Completions of prem_annotate for bash: source this file, or install it as prem_annotate in bash-completion's folder.
_prem_annotate() {
  local word=${COMP_WORDS[COMP_CWORD]} names
  COMPREPLY=()
  case $COMP_CWORD in
    1)
      compopt -o filenames 2>/dev/null
      COMPREPLY=($(compgen -f -X '!*.toml' -- "$word") $(compgen -d -- "$word"))
      ;;
    2)
      # the names of the set's tasks: those before the first [[device]]
      names=$(sed -n '/^\[\[device\]\]/q; s/^ *name *= *"\([^"]*\)".*/\1/p' "${COMP_WORDS[1]}" 2>/dev/null)
      COMPREPLY=($(compgen -W "$names" -- "$word"))
      ;;
  esac
}
complete -F _prem_annotate prem_annotate ./prem_annotate
