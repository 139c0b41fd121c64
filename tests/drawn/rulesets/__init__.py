"""Rulesets drawn at random, for tests/answers/asked, and what the plain model says of their packets.

    ruleset     a ruleset: the policy of INPUT, the user chains and the rules; the names of interfaces
    model       the walks of packets, by the plain model
    small       rulesets of INPUT and one user chain
    large       rulesets of 30 to 200 rules in INPUT and some user chains
    edits       large rulesets, edited

What a draw is weighted by is in tables.
"""
