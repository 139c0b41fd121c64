"""bin/fit on rows of dumps: what it writes and its status, to the byte."""

import pathlib
import signal

from tests.shared.row_files import rows_in
from tests.shared.run_files import runs_in
from tests.shared.rows import UNREAD, Row, each, same

# Runs on a dump; what dumps begin with, and the lists of services and protocols, by the first of them.
RUNS = runs_in("commands/fit.runs")
HEAD, LISTS = RUNS[0].files["d"].partition(b"-A INPUT")[0], {name: RUNS[0].files[name] for name in "SP"}
NAMES = ["--services", "S", "--protocols", "P"]

# Rules in spellings that iptables takes: what is written in their place, and what is said. Those that can't fit have what is said alone.
SPELLINGS = rows_in("commands/spellings.rows", "><!")


def dump(lines):
    return HEAD + b"".join(line + b"\n" for line in lines) + b"COMMIT\n"


def head(assumed, dropped):
    """The first line of a dump that is for trials."""
    said = [(b"assumed ", assumed), (b"taken out ", dropped)]
    return b"; ".join([b"# iptsim-fit: for trials", *(what + b", ".join(words) for what, words in said if words)]) + b"\n"


FIRST = dump([]).count(b"\n")


def note(at, text):
    """What is said of the lines of a dump, by their places behind those that each has."""
    return b"d:%d: %s\n" % (FIRST + at, text)


def fault(at, text):
    return b"fit: " + note(at, text)


def on(lines, words=()):
    """The words and the files of a run on a dump with these lines."""
    return [*words, "d"], {"d": dump(lines), **LISTS}


def spelling_rows():
    """Lines that mean the same, and in another run lines that can't be made to fit, each beside all others."""
    fitted, left = ([row for row in SPELLINGS if bool(row[1]) is fits] for fits in (True, False))
    said = b"".join(note(at, text) for at, row in enumerate(fitted) for text in row[2])
    yield Row("spellings", *on([line for (line,), *_ in fitted], NAMES), dump([line for row in fitted for line in row[1]]), 0, said)
    said = b"".join(fault(at, text) for at, (*_, (text,)) in enumerate(left))
    yield Row("lines that can't fit", *on([line for (line,), *_ in left], NAMES), b"", 1, said)


# Rules that decide nothing: what is written in their place, what is said, and what is said to be taken out. And rules that decide: the text and the name
# of what is to be assumed.
GONE = b"the rule gives no verdict, taken out: "
TARGETS = rows_in("commands/targets.rows", "><!-=")
QUIET, LOUD = ([row for row in TARGETS if bool(row[-1]) is decides] for decides in (False, True))
# What is taken out of them, in the words of the first line.
DROPPED = (b"-j TCPMSS", b"-j MARK", b"-j NFLOG", b"-j CONNMARK", b"-j SET", b"-m limit", b"--log-macdecode", b"-m recent", b"-m mac",
           b"-m owner", b"-m ah", b"-m hashlimit", b"-m set", b"-m string", b"-m connlimit", b"-m time", b"-m policy", b"-m statistic",
           b"-m physdev", b"-m connbytes", b"-m addrtype", b"--ctproto", b"--tcp-option", b"-m ndpi", b"-m label", b"-m shape", b"-m nothing")


def asked(name, text):
    return b"state --assume '%s=true' or '%s=false': %s" % (name, name, text)


def quiet_rows():
    """What decides nothing goes, and what decides is asked for."""
    chains = [b":further -", b":leads -"]
    said = [note(2 + at, text) for at, (*_, notes, gone, _) in enumerate(QUIET) for text in [*notes, *(GONE + words for words in gone)]]
    yield Row("rules that decide nothing", *on(chains + [rule for (rule,), *_ in QUIET]),
              head([], DROPPED) + dump(chains + [written for _, (written,), *_ in QUIET]), 0, b"".join(said))
    said = [fault(2 + at, asked(name, text)) for at, (_, _, (text,), _, (name,)) in enumerate(LOUD)]
    yield Row("rules that decide", *on(chains + [rule for (rule,), *_ in LOUD]), b"", 2, b"".join(said))


# A rule, what is assumed, what is written in its place, and what is said; after these the assumptions that weren't needed.
ASSUMED = rows_in("commands/assumed.rows", ">=<!?")


def assumption_rows():
    """Assumptions that are stated: of all chains, true and false, inverted, and finer ones."""
    for place, ((rule,), stated, written, said, unneeded) in enumerate(ASSUMED):
        chain = (b"INPUT", b"FORWARD", b"OUTPUT", b"verdict")[place % 4]
        rule, *written = (each.replace(b" -i lo", b" -f") for each in (rule, *written))
        words = [word for each in stated for word in ("--assume", each.decode())]
        said = [note(0, text) for text in said] + [b"fit: --assume '%s' wasn't needed\n" % each for each in unneeded]
        used = [each for each in stated if each not in unneeded]
        fitted = head(used, [] if used else [b"-m limit"]) + dump([b"-A %s %s" % (chain, each) for each in written])
        yield Row(f"{words} on {rule.decode()}", *on([b"-A %s %s" % (chain, rule)], [*NAMES, *words]), fitted, 0, b"".join(said))


def test_rule_that_never_matches(command, iptsim):
    """No packet matches it, in any chain; and the other rules keep their numbers."""
    hooks = (b"INPUT", b"FORWARD", b"OUTPUT")
    lines = [b"-A %s %s" % (hook, words) for words in (b"-m limit -j DROP", b"-j ACCEPT") for hook in hooks]
    fitted = command("fit").run(["--assume", "limit=false", "d"], {"d": dump(lines)}).stdout
    packets = b"".join(b"packet %s src=%s dst=2.2.2.2 proto=47\n" % (hook, source) for hook in hooks
                       for source in (b"0.0.0.0", b"10.0.0.1", b"255.255.255.255"))
    came = iptsim.said(["session"], b"iptables-restore <<END\n" + fitted + b"END\n" + packets)
    same((b"".join(b"%s 2\nverdict ACCEPT by rule\n" % hook * 3 for hook in hooks),), (came,))


def machine_rows():
    """The lists that the machine has, and a reader that has gone."""
    for kind, option, rule in ((b"port", b"--dport", b"-A INPUT -p tcp --dport "), (b"protocol", b"-p", b"-A INPUT -p ")):
        for name, number in usual_entry(kind):
            yield Row(f"the machine's own {kind.decode()}s", *on([rule + name]), dump([rule + number]), 0,
                      note(0, b"%s: %s %s -> %s %s" % (kind, option, name, option, number)))
    yield Row("a closed pipe", *on([b"-A INPUT -j a"]), b"", -signal.SIGPIPE, stdout=UNREAD)


def usual_entry(kind):
    """A name of the machine's own list with its number, which the program doesn't know, in a list; an empty one where there is none."""
    path = pathlib.Path("/etc/services" if kind == b"port" else "/etc/protocols")
    lines = path.read_bytes().splitlines() if path.exists() else []
    entries = [line.split()[:2] for line in lines if line[:1].isalpha() and len(line.split()) > 1]
    if kind == b"port":
        return [(name, port.split(b"/")[0]) for name, port in entries if port.endswith(b"/tcp")][:1]
    return [(name, number) for name, number in entries if name in (b"pim", b"ipip", b"egp", b"ipencap")][:1]


@each(RUNS, spelling_rows, quiet_rows, assumption_rows, machine_rows)
def test_fit(row, command):
    command("fit").check(row)
