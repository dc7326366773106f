# Completions of prem_profile for fish: put this file into ~/.config/fish/completions.
complete -c prem_profile -f
complete -c prem_profile -n 'test (count (commandline -opc)) -eq 1' -a '(__fish_complete_suffix .toml)'
complete -c prem_profile -n 'test (count (commandline -opc)) -eq 1' -l bound -d 'the bound of a set instead of a run'
complete -c prem_profile -n 'contains -- --bound (commandline -opc)' -a '(__fish_complete_suffix .toml)'
complete -c prem_profile -n 'test (count (commandline -opc)) -eq 2' -a '(__fish_complete_suffix .run)'
complete -c prem_profile -n 'test (count (commandline -opc)) -eq 3' -l cycles -x -d 'the run stops in this cycle'
