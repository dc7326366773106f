# Completions of prem_wave for fish: put this file into ~/.config/fish/completions.
complete -c prem_wave -f
complete -c prem_wave -n 'test (count (commandline -opc)) -eq 1' -a '(__fish_complete_suffix .toml)'
complete -c prem_wave -n 'test (count (commandline -opc)) -eq 2' -a '(__fish_complete_suffix .run)'
complete -c prem_wave -n 'test (count (commandline -opc)) -ge 3' -l from -x -d 'the dump begins with this cycle'
complete -c prem_wave -n 'test (count (commandline -opc)) -ge 3' -l to -x -d 'the run ends before this cycle'
