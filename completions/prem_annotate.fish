# Completions of prem_annotate for fish: put this file into ~/.config/fish/completions.
complete -c prem_annotate -f
complete -c prem_annotate -n 'test (count (commandline -opc)) -eq 1' -a '(__fish_complete_suffix .toml)'
# the names of the set's tasks: those before the first [[device]]
complete -c prem_annotate -n 'test (count (commandline -opc)) -eq 2' -a '(sed -n \'/^\\[\\[device\\]\\]/q; s/^ *name *= *"\\([^"]*\\)".*/\\1/p\' (commandline -opc)[2] 2>/dev/null)'
