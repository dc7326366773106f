# Completions of prem_pair for fish: put this file into ~/.config/fish/completions.
complete -c prem_pair -f
complete -c prem_pair -n 'test (count (commandline -opc)) -le 2' -a '(__fish_complete_suffix .toml)'
complete -c prem_pair -n 'contains (count (commandline -opc)) 3 4' -a '(__fish_complete_suffix .run)'
complete -c prem_pair -n 'test (count (commandline -opc)) -ge 5' -l cycles -x -d 'the run stops in this cycle'
complete -c prem_pair -n 'test (count (commandline -opc)) -ge 5' -l intervals -d 'a line for each interval'
