# Completions of prem for bash: source this file, or install it as prem in bash-completion's folder.
_prem() {
  local word=${COMP_WORDS[COMP_CWORD]} command=${COMP_WORDS[1]} before=${COMP_WORDS[COMP_CWORD-1]}
  local options="" pattern="" place=0 at
  COMPREPLY=()
  if [ "$COMP_CWORD" -eq 1 ]; then
    COMPREPLY=($(compgen -W "one check build list source run exec sample tile color mail" -- "$word"))
    return
  fi
  [ "$before" = --cycles ] && return
  case $command in
    run | exec) options="--cycles --intervals" ;;
    mail) options="--cycles" ;;
  esac
  if [[ $word == -* ]]; then
    COMPREPLY=($(compgen -W "$options" -- "$word"))
    return
  fi
  # which of the command's files this word is
  for ((at = 2; at < COMP_CWORD; at++)); do
    [[ ${COMP_WORDS[at]} == --* || ${COMP_WORDS[at - 1]} == --cycles ]] || place=$((place + 1))
  done
  case $command$place in
    one0 | tile0) pattern='*.c' ;;
    check0 | build0 | list0 | source0 | run0 | color0 | mail0) pattern='*.toml' ;;
    source1 | run1 | exec1 | mail1) pattern='*.run' ;;
    mail2) pattern='*.mail' ;;
    exec0) pattern='*.img' ;;
    *) return ;;
  esac
  compopt -o filenames 2>/dev/null
  COMPREPLY=($(compgen -f -X "!$pattern" -- "$word") $(compgen -d -- "$word"))
}
complete -F _prem prem ./prem ./try
