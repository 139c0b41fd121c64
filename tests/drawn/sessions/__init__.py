"""Sessions drawn at random, for tests/answers/compare: their parts, from single values up to whole inputs.

    values     good and bad values of options and packet keys: few of each, so that they meet; words spelled as lines, with and without quotes
    rules      the words of rules
    aims       what a packet has that is aimed at a rule
    packets    packet lines
    commands   commands, steered by the table that the model has come to
    sections   the lines of restores
    inputs     whole sessions and restores, each line with the model's reply, and files that are loaded before them

What a draw is weighted by is in tables. None of it decides what a line means.
"""
