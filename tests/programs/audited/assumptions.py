"""iptaudit on files that say what was assumed when they were made to load: what is repeated, by each question, and before a fault; to the byte."""

import os
import subprocess

from tests.programs.audited.rulesets import CHANGED, COVERED, SAME, ruleset
from tests.shared.rows import Row, each, outcome, same

WEB, MAIL = b"-A INPUT -p tcp -m tcp --dport 22:25 -j ACCEPT", b"-A INPUT -p tcp -m tcp --dport 25 -j DROP"
NAMES = b"-A INPUT -p udp -m udp --dport 53 -j ACCEPT"
GATEWAY, WITHOUT, OTHER = (ruleset(b"DROP", rules) for rules in ([WEB, MAIL, NAMES], [WEB, NAMES], [MAIL, NAMES]))
LINE = b"# iptsim-fit: for trials; assumed limit=true \xff\n"
OTHER_LINE = b"# iptsim-fit: for trials; assumed recent=false\n"
COUNTS = b"2 rules, 0 dead, 0 unclear\n"
UNCLEAR = SAME.replace(b"same", b"unclear") + CHANGED % (1, 0, 1)

# What a file has, and which lines of it are repeated: those that begin so, wherever they stand, and a last one without its newline.
FILES = [
    (WITHOUT, b""),
    (LINE + WITHOUT, LINE),
    (b"# one\n\n" + LINE + WITHOUT, LINE),
    (WITHOUT.replace(b"COMMIT\n", LINE + b"COMMIT\n"), LINE),
    (WITHOUT + LINE, LINE),
    (WITHOUT + LINE[:-1], LINE),
    (WITHOUT + b"# iptsim-fit:", b"# iptsim-fit:\n"),
    (WITHOUT + b"# iptsim-fit", b""),
    (LINE + WITHOUT + OTHER_LINE, LINE + OTHER_LINE),
    (b" " + LINE + b"#" + LINE + b"# iptsim-fitted: no\n# iptsim\n#\n" + WITHOUT, b""),
    (b"# iptsim-fit:\n# iptsim-fit: \r\n" + WITHOUT, b"# iptsim-fit:\n# iptsim-fit: \r\n"),
]


def question_rows():
    for data, said in FILES:
        yield Row(f"{said!r}", ["dead", "R"], {"R": data}, COUNTS, 0, said)
    # A line that a read cuts at any byte of its beginning: files are read in parts of 65,536 bytes.
    for before in range(65536 - 16, 65536 + 2):
        filling = b"#" * 9999 + b"\n"
        filling = filling * 6 + b"#" * (before - 6 * len(filling) - 1) + b"\n"
        yield Row(f"a line after {before} bytes", ["dead", "R"], {"R": filling + LINE + WITHOUT}, COUNTS, 0, LINE)
    yield Row("a pipe", ["dead", "/dev/stdin"], {}, COUNTS, 0, LINE, input=LINE + WITHOUT)
    files = {"O": LINE + GATEWAY, "N": OTHER_LINE + WITHOUT, "B": LINE + ruleset(b"DROP", [b"-A INPUT -j nowhere"]), "M": OTHER}
    yield Row("of both files", ["compare", "O", "N"], files, SAME + CHANGED % (1, 1, 0), 0, LINE + OTHER_LINE)
    yield Row("of one file twice", ["compare", "N", "N"], files, SAME + CHANGED % (0, 0, 0), 0, OTHER_LINE * 2)
    yield Row("of the old file", ["compare", "--steps", "0", "O", "M"], files, UNCLEAR, 3, LINE)
    yield Row("tests", ["tests", "--steps", "0", "--json", "N"], {"N": OTHER_LINE}, b'{"question":"tests","rules":[]}\n', 0, OTHER_LINE)
    yield Row("cover", ["cover", "N"], {"N": OTHER_LINE}, COVERED % (0, 0, 0, 0, 0), 0, OTHER_LINE, input=b"")
    yield Row("reach", ["reach", "N", "INPUT", "by=ttl"], {"N": OTHER_LINE}, b"ACCEPT by policy: ttl=any\n", 0, OTHER_LINE)
    yield Row("a fault", ["dead", "B"], files, b"", 2, LINE + b"line 8: T11 target chain missing\niptaudit: cannot restore B\n")


@each(question_rows)
def test_assumed(row, iptaudit):
    iptaudit.check(row)


def test_slow_pipe(iptaudit):
    """A file that gives a byte or so at a time."""
    command = f"for byte in {' '.join(f'{byte:03o}' for byte in LINE)}; do printf \"\\\\$byte\"; sleep 0.01; done; cat"
    with subprocess.Popen(["sh", "-c", command], stdin=subprocess.PIPE, stdout=subprocess.PIPE) as slow:
        slow.stdin.write(WITHOUT)
        slow.stdin.close()
        ended = iptaudit.run(["dead", "/dev/stdin"], input=f"/dev/fd/{os.dup(slow.stdout.fileno())}")
    same((0, COUNTS, LINE), outcome(ended))


def test_iptsim_repeats_nothing(iptsim):
    iptsim.check(Row("iptsim", ["restore", "--test"], {}, b"", 0, b"", input=LINE + GATEWAY))
