# Completions of prem_lint for fish: put this file into ~/.config/fish/completions.
complete -c prem_lint -f
complete -c prem_lint -n 'test (count (commandline -opc)) -eq 1' -a '(__fish_complete_suffix .toml)'
