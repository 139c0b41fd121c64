"""Words for the options of the table: a value of each, and what iptables asks to stand before them."""

# What stands before the options of an extension.
BEFORE = {"multiport": ["-p", "tcp"], "tcpmss": ["-p", "tcp"], "ecn": ["-p", "tcp"], "TCPMSS": ["-p", "tcp"], "SYNPROXY": ["-p", "tcp"],
          "REJECT": ["-p", "tcp"]}
# What stands before an option.
BEFORE_OPTION = {"--suppl-groups": ["--gid-owner", "0"]}
# A value of each kind.
OF_KIND = {"address": "192.0.2.1", "addresses": "192.0.2.1", "protocol": "tcp", "match": "comment", "target": "DROP", "flags": "SYN",
           "number": "3", "port": "80", "ports": "80", "type": "8", "range": "3:9", "states": "NEW", "state": "NEW", "statuses": "ASSURED",
           "direction": "ORIGINAL", "spi": "3", "id": "3", "mask": "3", "value": "1", "length": "24", "mark": "1", "rate": "3/min",
           "user": "0", "policy": "ipsec", "chunks": "INIT", "date": "2026-01-01", "days": "1", "tests": "0=0", "level": "3",
           "reject": "tcp-reset", "kind": "any", "time": "10", "bytes": "3", "seconds": "3", "hits": "3", "group": "1", "bits": "1"}
# A value of an option where it is another one.
OF_OPTION = {"--src-type": "LOCAL", "--dst-type": "LOCAL", "--bytecode": "1,6 0 0 1", "--connbytes-dir": "both", "--connbytes-mode": "packets",
             "--src-group": "1", "--dst-group": "1", "--dccp-types": "REQUEST", "--dscp-class": "EF", "--hashlimit-mode": "srcip",
             "--mac-source": "00:11:22:33:44:55", "--pkt-type": "unicast", "--dir": "in", "--proto": "esp", "--mode": "tunnel",
             "--probability": "0.5", "--timestart": "10:00", "--timestop": "11:00", "--type": "drop", "--set-class": "1:2",
             "--src-range": "192.0.2.1-192.0.2.9", "--dst-range": "192.0.2.1-192.0.2.9", "--vmethod": "GATE", "--vdir": "ORIGINAL",
             "--hashmode": "sourceip", "--clustermac": "01:11:22:33:44:55", "--genre": "Linux", "--ttl": "1", "--log": "1",
             "--vproto": "tcp", "--rateest1": "x", "--rateest2": "x", "--rateest-interval": "250ms", "--rateest-ewmalog": "500ms"}
OF_EXTENSION = {("statistic", "--mode"): "random", ("ttl", "--ttl"): "3", ("SYNPROXY", "--mss"): "3", ("HMARK", "--hmark-mod"): "3"}


def value(extension, option, place, kind):
    """A word for a value of an option."""
    first = option.names[0].decode()
    found = OF_EXTENSION.get((extension.name.decode(), first)) or OF_OPTION.get(first)
    return found if found and place == 0 else OF_KIND.get(kind, "eth0")


def words_before(extension):
    """The words that stand before the options of a match or target, or of any rule: a protocol, and what begins it."""
    owner = extension.name.decode()
    before = [*BEFORE.get(owner, []), *(["-p", extension.protocols[0].decode()] if extension.protocols else [])]
    return before if extension.kind == "rule" else [*before, "-m" if extension.kind == "match" else "-j", owner]
