# Completions of prem_chart for fish: put this file into ~/.config/fish/completions.
complete -c prem_chart -f
complete -c prem_chart -n 'test (count (commandline -opc)) -eq 1' -a '(__fish_complete_suffix .toml)'
complete -c prem_chart -n 'test (count (commandline -opc)) -eq 2' -a '(__fish_complete_suffix .run)'
complete -c prem_chart -n 'test (count (commandline -opc)) -ge 3' -l from -x -d 'the picture begins with this cycle'
complete -c prem_chart -n 'test (count (commandline -opc)) -ge 3' -l to -x -d 'it ends before this cycle'
# the names of the set's devices: those behind the first [[device]]
complete -c prem_chart -n 'test (count (commandline -opc)) -ge 3' -l every -x -a '(sed -n \'/^\\[\\[device\\]\\]/,$ s/^ *name *= *"\\([^"]*\\)".*/\\1=/p\' (commandline -opc)[2] 2>/dev/null)' -d 'DEVICE=CYCLES between requests'
