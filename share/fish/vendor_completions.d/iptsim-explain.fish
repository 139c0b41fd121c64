# Completion for fish of iptsim-explain. tools/completions writes this file of share/commands.tsv.

complete -c iptsim-explain -f
complete -c iptsim-explain -s h -l help -d 'Print help'
complete -c iptsim-explain -l why-not -d 'Say of each rule that doesn\'t match which condition fails'
complete -c iptsim-explain -l json -d 'Write one JSON document'
complete -c iptsim-explain -l when -r -f -d 'Take CONDITION as one that holds, or after \'! \' as one that doesn\'t'
complete -c iptsim-explain -l local -r -f -d 'Read addrtype by the machine\'s addresses, ADDRESS/LENGTH, with commas between'
complete -c iptsim-explain -l unknown -r -f -d 'Read MATCH as a condition; \'MATCH OPTION N\' gives it an option with N values'
complete -c iptsim-explain -l steps -r -f -d 'Take N steps at most for each question'
complete -c iptsim-explain -F
