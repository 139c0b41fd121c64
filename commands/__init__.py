"""The commands for users that are scripts, and their modules.

    check, fit, expect, explain   the commands, which are started by bin/check and so on

    places        where the programs are, and what commands are called
    crates        whether a program that was built of the crates is up to date
    program       how a program is asked, how files and words are read, how a command ends

    dump          what is wrong with a dump, as a file and line by line
    kinds         what a file is that is no dump; rules for IPv6 alone
    refused       the lines that the program refuses

    findings      what is found wrong, and how it is printed
    at_fault      the lines of a session that the program refuses, and the words at fault in them
    meant         what was perhaps meant by a word

    extensions    the options of iptables, by the table in options.table
    rule_parts    the parts of a rule, and quotes within its words
    spelling      values of options as the program takes them
    fitting       what is made of lines that are refused

    walks         a ruleset as the program lists it, and the walks of packets
    why_not       why rules don't match a packet, by the plain model in tests/model

    json_documents   what is written as JSON

Where they are installed, PREFIX/lib/iptsim has this package, and tests/model, beside the starters.
"""
