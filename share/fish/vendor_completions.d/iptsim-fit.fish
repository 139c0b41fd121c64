# Completion for fish of iptsim-fit. tools/completions writes this file of share/commands.tsv.

complete -c iptsim-fit -f
complete -c iptsim-fit -s h -l help -d 'Print help'
complete -c iptsim-fit -l assume -r -f -d 'State what a match or a target does'
complete -c iptsim-fit -l noflush -d 'Add each section to those before it'
complete -c iptsim-fit -l services -r -F -d 'Take the names of ports from FILE'
complete -c iptsim-fit -l protocols -r -F -d 'Take the names of protocols from FILE'
complete -c iptsim-fit -F
