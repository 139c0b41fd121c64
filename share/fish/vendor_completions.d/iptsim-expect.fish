# Completion for fish of iptsim-expect. tools/completions writes this file of share/commands.tsv.

complete -c iptsim-expect -f
complete -c iptsim-expect -s h -l help -d 'Print help'
complete -c iptsim-expect -s q -l quiet -d 'Leave out the rules that no packet matched'
complete -c iptsim-expect -l json -d 'Write one JSON document in place of TAP'
complete -c iptsim-expect -l junit -r -F -d 'Write JUnit XML into FILE, too'
complete -c iptsim-expect -l when -r -f -d 'Take CONDITION as one that holds, or after \'! \' as one that doesn\'t'
complete -c iptsim-expect -l local -r -f -d 'Read addrtype by the machine\'s addresses, ADDRESS/LENGTH, with commas between'
complete -c iptsim-expect -l unknown -r -f -d 'Read MATCH as a condition; \'MATCH OPTION N\' gives it an option with N values'
complete -c iptsim-expect -l steps -r -f -d 'Take N steps at most for each question'
complete -c iptsim-expect -F
