# Completions of prem_resp for fish: put this file into ~/.config/fish/completions.
complete -c prem_resp -f
complete -c prem_resp -n 'test (count (commandline -opc)) -eq 1' -a '(__fish_complete_suffix .toml)'
