# Completion for fish of iptsim. tools/completions writes this file of share/commands.tsv.

complete -c iptsim -f
complete -c iptsim -n __fish_use_subcommand -s h -l help -d 'Print help'
complete -c iptsim -n __fish_use_subcommand -s V -l version -d 'Print version'
complete -c iptsim -n __fish_use_subcommand -a session -d 'Run a session from standard input to standard output'
complete -c iptsim -n '__fish_seen_subcommand_from session' -s h -l help -d 'Print help'
complete -c iptsim -n '__fish_seen_subcommand_from session' -l load -r -F -d 'Restore FILE first'
complete -c iptsim -n __fish_use_subcommand -a restore -d 'Restore the file on standard input, and print the listing that results'
complete -c iptsim -n '__fish_seen_subcommand_from restore' -s h -l help -d 'Print help'
complete -c iptsim -n '__fish_seen_subcommand_from restore' -l noflush -d 'Keep the rules and the user chains that are there'
complete -c iptsim -n '__fish_seen_subcommand_from restore' -l test -d 'Only read and build: put nothing in place, and print no listing'
complete -c iptsim -n '__fish_seen_subcommand_from restore' -l load -r -F -d 'Restore FILE first'
