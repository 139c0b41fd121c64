"""A program that is run with one of its allocations refused."""
