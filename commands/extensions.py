"""The options of iptables 1.8.9 for rules of the table filter, by the table in options.table: whose each is and what it takes."""

import collections
import pathlib

# The table, whose head says how it is read.
TABLE = pathlib.Path(__file__).resolve().with_name("options.table")

# `place` is the sign before an option, and `values` are the kinds of its values.
Option = collections.namedtuple("Option", "names values place")
# `sets` are the names of the matches that ask what a target sets; `notes` are the words after the name of a match, `protocols` those of
# `-p` that begin it, `always` are the first names of its options that always hold, `unopposed` of those whose `!` isn't their opposite, `things` of
# those whose first value names what is asked or set, and `counted` of those that ask what packets before had.
Extension = collections.namedtuple("Extension", "kind name options sets notes protocols always unopposed things counted", defaults=((),) * 6)


def extension_of(row):
    kind, name, *words = row.split()
    options, sets, notes, protocols, firsts = [], [], [], (), collections.defaultdict(list)
    for word in words:
        sign, rest = word[0], word[1:].encode()
        if sign == ">":
            sets.append(rest)
        elif sign == "@":
            protocols = tuple(rest.split(b","))
        elif sign in "=+*~&%.<^" and rest[:1] == b"-":
            names = tuple(rest.split(b","))
            options.append((names, [], "+" if sign in "*~&%" else "." if sign == "<" else sign))
            firsts[sign].append(names[0])
        elif options:
            options[-1][1].append(word)
        else:
            notes.append(word)
    options = tuple(Option(names, tuple(values), place) for names, values, place in options)
    lists = (sets, notes, protocols, firsts["*"], firsts["~"] + firsts["%"], firsts["&"] + firsts["<"], firsts["%"])
    return Extension(kind, name.encode(), options, *map(tuple, lists))


def rows(path):
    lines = [line for line in path.read_text(encoding="ascii").split("\n") if line and line[0] != "#"]
    return "\n".join(lines).replace("\n    ", " ").split("\n")


def unknown_match(name):
    """A match that isn't in the table."""
    return Extension("match", name, (), ())


EXTENSIONS = [extension_of(row) for row in rows(TABLE)]
RULE, COMMAND = EXTENSIONS[:2]
MATCHES = {row.name: row for row in EXTENSIONS if row.kind == "match"}
TARGETS = {row.name: row for row in EXTENSIONS if row.kind in ("ends", "passes", "decides", "may-decide")}
# The matches that `-p` starts by itself where one of their options stands, by the number of the protocol.
OF_PROTOCOL = {int(row.protocols[-1]): row.name for row in MATCHES.values() if row.protocols}
# The protocols of multiport, by their numbers.
PROTOCOLS = {6: b"tcp", 17: b"udp", 33: b"dccp", 132: b"sctp", 136: b"udplite"}
# The names of options that the program knows by their first name alone.
OTHER_NAMES = (b"--fragments", b"--ttl")
# The matches that the program knows, and which may stand without an option.
WITHOUT_OPTION = tuple(row.name for row in MATCHES.values() if "alone" in row.notes)


def set_by(target):
    """The names of the matches that ask what a target sets."""
    return (*target.sets, *(match.name for match in MATCHES.values() if match.things and target.things))


def is_known(extension):
    return extension.kind == "ends" or any(option.place == "=" for option in extension.options)


def exact(name, owners):
    """The option of this name: an owner and the option, or None."""
    return next(((owner, option) for owner in owners for option in owner.options if name in option.names), None)


def begun(name, owners):
    """The option whose name begins so, where it is one alone."""
    if not name.startswith(b"--") or name == b"--":
        return None
    found = [(owner, option) for owner in owners for option in owner.options if any(each.startswith(name) for each in option.names)]
    return found[0] if len(found) == 1 else None


def takes_values(name):
    """Whether an option of this name of any match, target or rule takes a value."""
    return any(option.values for owner in EXTENSIONS for option in owner.options if name in option.names)
