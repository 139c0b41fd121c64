"""The table of commands in share/commands.tsv, and the completions for bash, zsh and fish that are written of it."""
