# Completion for fish of iptsim-check. tools/completions writes this file of share/commands.tsv.

complete -c iptsim-check -f
complete -c iptsim-check -s h -l help -d 'Print help'
complete -c iptsim-check -l session -d 'Take each FILE as lines of a session'
complete -c iptsim-check -l load -r -F -d 'Begin sessions with the table of DUMP'
complete -c iptsim-check -l json -d 'Write one JSON document'
complete -c iptsim-check -F
