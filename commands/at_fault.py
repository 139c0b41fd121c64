"""The lines of a session that the program refuses, for bin/check --session, and the words at fault in them, from its replies: which word it is, and
what was perhaps meant."""

import re

from commands.extensions import PROTOCOLS
from commands.findings import of_fault, text_of
from commands.meant import COMMANDS, HOOKS, PACKET_KEYS, RESTORE_OPTIONS, meant, nearest
from commands.places import command
from commands.program import FAULT, Session, Trouble, fault_of, lines_of, read, run, words_of
from commands.refused import COUNTERS, SESSION_WORDS, Question, locate
from commands.spelling import OWN_PROTOCOLS

MAKES_CHAIN = re.compile(rb"(?m)^(?:(?:iptables[ \t]+)?(?:-N|--new-chain|-E[ \t]+\S+|--rename-chain[ \t]+\S+)[ \t]+|:)([^\s\"]+)")
OF_SESSION = ("S1", "S2", "S3")
OF_FIRST_FRAGMENTS = (b"sport", b"dport", b"flags", b"icmp")


def kind_of(line):
    """The first word of a line of a session; empty for a line of a restore within it."""
    first = line.split()[0] if line.split() else b""
    return first if first in SESSION_WORDS else b""


def restore_word(words):
    """The word for which a line `iptables-restore ..` is none, with its fault S2."""
    options = [word.lstrip(b"-")[:1] for word in words[1:-1]]
    wrong = [word for place, word in enumerate(words[1:-1]) if word not in RESTORE_OPTIONS or options[place] in options[:place]]
    return [*wrong, words[-1]][0]


def of_session(line, code):
    """The word at fault in a line that is no command and no packet."""
    words = [word.value for word in words_of(line) or ()]
    if code in ("S2", "S3"):
        return restore_word(words) if code == "S2" else words[-1][2:]
    if code in ("S1", "C1", "R1") or len(words) == 1:
        return words[0]
    return words[2 if (code, words[0]) == ("C3", b"lines") else 1]


def command_of(line, code):
    """What is asked of a line with a command: what stands after `iptables`, or after counters, or a line of a restore as it is."""
    words = words_of(line)
    if words and COUNTERS.fullmatch(words[0].value):
        return line[words[0].end:]
    # (a line that begins with `iptables` and is no command may be one of a restore)
    if words and (code in ("R1", "R2", "R3") or code == "C1" and len(words) > 1 and words[1].value in COMMANDS):
        return line
    return line.lstrip(b" \t")[len(kind_of(line)):].lstrip(b" \t")


def is_command(line, code):
    return code not in OF_SESSION and kind_of(line) in (b"", b"iptables") or code in ("R5", "R6")


def of_commands(items, chains):
    """The findings of lines with commands, by their places among the items."""
    asked = [(place, item, Question(item[0], command_of(item[1], item[2].code), (), None)) for place, item in enumerate(items)
             if is_command(item[1], item[2].code)]
    found = locate([(question, item[2]) for _, item, question in asked])
    for (place, (number, line, fault), _), search in zip(asked, found):
        refused = search.refused()
        word = b"%d bytes" % len(line) if fault.code == "R6" else refused.word
        yield place, of_fault(number, fault, word, meant=meant(fault.code, refused.option, refused.value, chains))


def parts_of(given):
    """Which keys a packet carries of those that first fragments of some protocols carry, and which of these it needs."""
    name = given.get(b"proto", b"")
    protocol = int(name) if name.isdigit() else OWN_PROTOCOLS.get(name)
    if given.get(b"frag") == b"1":
        return (), ()
    if protocol in PROTOCOLS:
        return (b"sport", b"dport") + (b"flags",) * (protocol == 6), (b"sport", b"dport")
    return ((b"icmp",), (b"icmp",)) if protocol == 1 else ((), ())


def of_key(words):
    """The first word that is no key with its value: what is said of the word, the word, and what was perhaps meant."""
    for key, equal, _ in (word.value.partition(b"=") for word in words):
        if not equal or key not in PACKET_KEYS:
            return {"text": b"unknown key", "word": key, "meant": key + b"=" if key in PACKET_KEYS else meant("F1", None, key, ())}
    return {}


def of_value(line, words):
    """The first word that the program can't read, or whose key stands twice."""
    session = Session()
    asked = [(word, session.ask(line[:word.end])) for word in words]
    session.run()
    keys = set()
    for word, places in asked:
        key, _, value = word.value.partition(b"=")
        fault = session.fault(places)
        if fault and fault.code == "F3":
            return {"word": word.value, **({"more": key + b" is given twice"} if key in keys else {"meant": meant("F3", key, value, ())})}
        keys.add(key)
    return {}


def in_packet(line, code):
    """What is said of the word at fault in a packet line with this code: parts of a finding, in place of the program's own."""
    _, *words = words_of(line)
    hook = words[0].value if words else b""
    given = dict(word.value.partition(b"=")[::2] for word in words[1:])
    if code == "F1" and (not words or b"=" in hook):
        return {"text": b"hook missing", "word": b"INPUT, FORWARD or OUTPUT"}
    if code == "F1" and hook not in HOOKS:
        return {"text": b"unknown hook", "word": hook, "meant": nearest(hook, HOOKS)}
    if code == "F1":
        return of_key(words[1:])
    if code == "F3":
        return of_value(line, words[1:])
    carried, needed = parts_of(given)
    wrong = [*(key for key in OF_FIRST_FRAGMENTS if key not in carried), {b"INPUT": b"out", b"OUTPUT": b"in"}.get(hook)]
    missing = [key for key in (b"src", b"dst", b"proto", *needed) if key not in given]
    return {"word": b", ".join(missing if code == "F2" else [key for key in given if key in wrong])}


def findings(items, chains):
    """What is wrong with each refused line: triples of its number, the line and its fault. For S3 the line is the one that opened the
    restore. `chains` are the names of the table's chains."""
    known = dict(of_commands(items, chains))

    def finding(place, number, line, fault):
        if place in known:
            return known[place]
        if kind_of(line) == b"packet" and fault.code[0] == "F":
            return of_fault(number, fault, b"")._replace(**in_packet(line, fault.code))
        word = b"" if fault.code == "M0" else of_session(line, fault.code)
        return of_fault(number, fault, word, meant=word and meant(fault.code, None, word, chains))

    return [finding(place, *item) for place, item in enumerate(items)]


def explained(line, reply, chains):
    """A refused line of a session with its reply, as `line 1: F2 key missing` or without the number, in words: `F2 key missing: dport`."""
    named = FAULT.fullmatch(reply if reply.startswith(b"line ") else b"line 0: " + reply)
    return text_of(findings([(0, line, fault_of(named))], chains)[0])


def opening(lines, refused):
    """The line that opened the restore in which the lines end. Those whose numbers are refused opened none."""
    end, opened = None, b""
    for number, line in enumerate(lines, 1):
        words = [word.value for word in words_of(line) or ()]
        if end is not None:
            end = None if line == end else end
        elif words and words[0] == b"iptables-restore" and number not in refused:
            end, opened = words[-1][2:], line
    return opened


def examine(data, load):
    """The findings of a session, which begins with the table of the file `load` where one is named."""
    status, output = run(["session", *(["--load", load] if load else [])], data)
    found = [each for each in map(FAULT.fullmatch, lines_of(output)) if each]
    if status and not found:
        raise Trouble(f"{load} doesn't load: {command('check')} {load} says why" if load else f"the program ended with status {status}")
    lines, faults = lines_of(data), {int(each.group(1)): fault_of(each) for each in found}
    items = [(number, opening(lines, faults) if fault.code == "S3" else lines[number - 1], fault) for number, fault in faults.items()]
    made = MAKES_CHAIN.findall(data + b"\n" + (read(load) if load else b""))
    return findings(items, list(dict.fromkeys(made)))
