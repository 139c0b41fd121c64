"""bin/check on rows of dumps: what it writes and its status, to the byte."""

import json
import signal

import pytest

from tests.shared import read
from tests.shared.row_files import rows_in
from tests.shared.run_files import runs_in
from tests.shared.rows import UNREAD, Row, each, section

COPY = b" iptaudit reads the dump as it is; bin/fit writes a copy for trials in which it always matches, or never does, as you state."
MEMORY = b"a stateful match: its result depends on earlier packets." + COPY
UNKNOWN = b"a match that iptsim lacks: most of these test what a packet line doesn't say." + COPY
PORT = b"a port has to be a number: `getent services NAME` prints that of a name."
PROTOCOL = b"iptsim knows thirteen protocols by name: `getent protocols NAME` prints the number of another."
ADDRESS = b"an address has to be a.b.c.d or a.b.c.d/n: write a rule for each address of a list, and the address of a name."
OPTION = (b"an option that iptsim lacks, or one that is not written in full. bin/fit removes it where the rule gives no verdict,"
          b" as with TCPMSS, NFLOG or MARK.")
MULTIPORT = b"write its option in full: --sports, --dports or --ports."
COMMAND = b"a line of a dump begins with its command, such as -A."
CHAIN = b"no such chain: make it with a line `:NAME - [0:0]` above."
TARGET = b"neither a chain nor a target of iptsim: make a chain with a line `:NAME - [0:0]` above."
# Lines of one section, each with what is said of it, if it is refused.
LINES = rows_in("commands/check.rows", ">!")
ADVICE_OF_LINES = [
    (b'limit, "recent", recent', MEMORY),
    (b'mac, ""', UNKNOWN),
    (b"--clamp-mss-to-pmtu, --log-macdecode", OPTION),
    (b"ssh, 22,http, domain", PORT),
    (b"ipencap, icmq", PROTOCOL),
    (b"1.2.3.4,5.6.7.8", ADDRESS),
    (b"multiport", MULTIPORT),
    (b"iptables", COMMAND),
    (b"nowhere", CHAIN),
    (b"MASQ", TARGET),
]
# Runs on dumps, of which the first loads; and those whose documents are due.
RUNS, JSON = runs_in("commands/check.runs"), runs_in("commands/check_json.runs")
LOADS = RUNS[0].files["d"].decode()
UTF_16 = [("UTF-16 with a mark", LOADS.encode("utf-16")), ("UTF-16, high bytes first", b"\xfe\xff" + LOADS.encode("utf-16-be")),
          ("UTF-16 without a mark", LOADS.encode("utf-16-le"))]
LIMIT = b" P7 unknown match: limit\n"
OF_LIMIT = b"d: limit: " + MEMORY + b"\n"


def long_rule(length, end):
    """A rule of so many bytes, by a long list of flags, that ends so."""
    line = b"-A INPUT%s -p tcp --tcp-flags SYN%s SYN" + end
    flags, blanks = divmod(length - len(line % (b"", b"")), 4)
    return line % (b" " * blanks, b",ACK" * flags)


def large_files():
    """Lines of 10,240 bytes, which are read, and of one more; a full chain, and more chains than a table has; many words of one kind: eight are named."""
    fits, over = long_rule(10240, b" -j DROP"), b"#" + b"x" * 10240
    yield "long lines that load", b"\n".join([b"*nat", over[1:], b"COMMIT", b"*filter", fits, over[:-1], b"COMMIT"]), b""
    lines = [b"*nat", over, b"COMMIT", over, b"*filter", over, long_rule(10240, b" -m limit"), long_rule(10240, b"  -j QUEUE"), fits + b" ",
             long_rule(10240, b" -m mark"), long_rule(9000, b"X"), b"-A INPUT -j nowhere", b"COMMIT"]
    yield ("long lines that don't", b"\n".join(lines),
           b"d:2: R6 line too long: 10241 bytes\nd:4: R6 line too long: 10241 bytes\nd:6: R6 line too long: 10241 bytes\nd:7:" + LIMIT +
           b"d:8: P3 bad value: QUEUE\nd:9: R6 line too long: 10241 bytes\nd:10: P7 unknown match: mark\nd:11: P3 bad value: SYNX\n"
           b"d:12: T11 target chain missing: nowhere\n" + OF_LIMIT + b"d: mark: " + UNKNOWN + b"\nd: nowhere: " + TARGET + b"\n")
    rules = [b"-A a"] * 8192
    yield ("a full chain", section(b":a -", b"-A INPUT -m limit", *rules, b"-A a -j DROP"),
           b"d:3:" + LIMIT + b"d:8196: T14 chain full: a (8,193 rules, of 8,192 at most)\n" + OF_LIMIT)
    # Each chain of each section has a line of its own, whatever stands between.
    yield ("full chains", section(b":a -", *rules, b"-A a -j DROP", b"-I a 1", b"-A INPUT -j nowhere", b"-A a") * 2,
           b"d:8195: T14 chain full: a (8,195 rules, of 8,192 at most)\nd:8197: T11 target chain missing: nowhere\n"
           b"d:16394: T14 chain full: a (8,195 rules, of 8,192 at most)\nd:16396: T11 target chain missing: nowhere\nd: nowhere: " + TARGET + b"\n")
    yield ("too many chains", section(*(b":c%d - [0:0]" % number for number in range(1026)), b"-A c1023 -j c1024", b"-A c1025 -j c1"),
           b"d:1026: T15 too many chains: :c1024\nd:1027: T15 too many chains: :c1025\n")
    for count in (8, 9, 10):
        names = [b"name%d" % number for number in range(count)]
        due = b"".join(b"d:%d: P3 bad value: %s\n" % (number, name) for number, name in enumerate(names, 2))
        told = b", ".join(names[:8]) + (b", .." if count > 8 else b"")
        yield f"{count} words", section(*(b"-A INPUT -s %s -j DROP" % name for name in names)), due + b"d: " + told + b": " + ADDRESS + b"\n"


def file_rows():
    """All lines in one dump, dumps in UTF-16, and large ones."""
    told = [b"d:%d: %s\n" % (number, text) for number, (_, texts) in enumerate(LINES, 2) for text in texts]
    told += [b"d: %s: %s\n" % pair for pair in ADVICE_OF_LINES]
    lines = ("all lines", section(*(line for (line,), _ in LINES)), b"".join(told))
    converted = [(*dump, b"d: is UTF-16: convert it with `iconv -f UTF-16 -t UTF-8`.\n") for dump in UTF_16]
    for about, data, output in [lines, *converted, *large_files()]:
        yield Row(about, ["d"], {"d": data}, output, 1 if output else 0)


def device_rows():
    """Standard input that is closed, and readers that have gone."""
    yield Row("no standard input", ["-"], {}, b"", 2, b"check: cannot read -: Bad file descriptor\n", input=None)
    yield Row("a closed pipe", ["bad"], {"bad": section(b"-A INPUT -m limit -j DROP")}, b"", -signal.SIGPIPE, stdout=UNREAD)
    yield Row("a closed pipe, and help", ["--help"], {}, b"", -signal.SIGPIPE, stdout=UNREAD, variables={"PYTHONUNBUFFERED": None})


@each(RUNS, file_rows, JSON, device_rows)
def test_check(row, command):
    command("check").check(row)


def test_schema():
    """The schema allows the documents that are due, and none that lacks a key or has another value."""
    jsonschema = pytest.importorskip("jsonschema")
    documents, schema = [json.loads(row.output) for row in JSON if row.output], json.loads(read("docs/schemas/check.json"))
    jsonschema.Draft202012Validator.check_schema(schema)
    validator = jsonschema.Draft202012Validator(schema)
    good, *_, odd, _ = documents[0]["files"]
    files = [{"file": "d"}, {**good, "advice": [{"words": [], "text": "x"}]},
             *({**good, "faults": [{**odd["faults"][0], key: value}]} for key, value in (("line", 0), ("code", "3")))]
    wrong = [{}, {**documents[0], "more": 1}, {**documents[0], "counts": {}}, *({**documents[0], "files": [file]} for file in files)]
    assert all(map(validator.is_valid, documents)) and not any(map(validator.is_valid, wrong))
