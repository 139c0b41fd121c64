"""A plain model of the program, for tests/model/plain and tests/answers/compare: its parts, from the words of a line up to sessions.

    faults     codes, texts and statuses
    words      the lines of an input, and the words of a line
    values     what the values of options and packets are, and which can't be read
    options    the table of options; rules read from words
    printing   rules and tables as they are listed
    matching   which numbers of a packet a rule allows; the lines of a chain
    packets    packet lines
    table      chains, their edits and refusals; the walk of a packet
    commands   the words of a command, and what it does to a table
    restore    the lines of a restore
    session    the lines of a session; a whole session, a whole restore, and a file that is loaded before

It is written from iptables(8), iptables-extensions(8), iptables-save(8) and iptables-restore(8) and from docs/iptsim.1, and from
nothing of the program: a chain is a list of rules, a rule is a list of conditions, and each is asked in turn.
"""
