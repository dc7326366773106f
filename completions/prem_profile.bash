# Completions of prem_profile for bash: source this file, or install it as prem_profile in bash-completion's folder.
_prem_profile() {
  local word=${COMP_WORDS[COMP_CWORD]}
  COMPREPLY=()
  compopt -o filenames 2>/dev/null
  case $COMP_CWORD in
    1)
      case $word in
        -*) COMPREPLY=($(compgen -W "--bound" -- "$word")) ;;
        *) COMPREPLY=($(compgen -f -X '!*.toml' -- "$word") $(compgen -d -- "$word")) ;;
      esac
      ;;
    2)
      case ${COMP_WORDS[1]} in
        --bound) COMPREPLY=($(compgen -f -X '!*.toml' -- "$word") $(compgen -d -- "$word")) ;;
        *) COMPREPLY=($(compgen -f -X '!*.run' -- "$word") $(compgen -d -- "$word")) ;;
      esac
      ;;
    3) COMPREPLY=($(compgen -W "--cycles" -- "$word")) ;;
  esac
}
complete -F _prem_profile prem_profile ./prem_profile
