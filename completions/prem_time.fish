# Completions of prem_time for fish: put this file into ~/.config/fish/completions.
complete -c prem_time -f
complete -c prem_time -n 'test (count (commandline -opc)) -eq 1' -a '(__fish_complete_suffix .toml)'
# the names of the set's devices: those behind the first [[device]]
complete -c prem_time -n 'test (count (commandline -opc)) -ge 2' -a '(sed -n \'/^\\[\\[device\\]\\]/,$ s/^ *name *= *"\\([^"]*\\)".*/\\1=/p\' (commandline -opc)[2] 2>/dev/null)' -d 'cycles between requests'
