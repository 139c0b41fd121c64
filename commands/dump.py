"""What bin/check and bin/fit share: what is wrong with a dump, as a file and line by line."""

from commands.findings import Finding, of_fault, text_of
from commands.kinds import for_ipv4, not_a_dump
from commands.program import FAULT, Trouble, fault_of, lines_of, run
from commands.refused import Reading, Refused, refused_lines

BYTE_ORDER_MARK = b"\xef\xbb\xbf"


def repaired(data):
    """The lines of the file without marks that hide what they say, and a sentence for each kind that was taken out."""
    notes = []
    if data.startswith(BYTE_ORDER_MARK):
        data = data[len(BYTE_ORDER_MARK):]
        notes.append((1, rb"begins with a byte order mark: remove it with `sed -i '1s/^\xef\xbb\xbf//'`."))
    lines = lines_of(data)
    for number, line in enumerate(lines, 1):
        bare = line.strip(b" \t\r")
        if line.endswith(b"\r") and (bare.startswith(b"*") or bare == b"COMMIT"):
            notes.append((number, rb"%s ends in a carriage return, so a section is skipped: remove them with `sed -i 's/\r$//'`." % bare))
            return [line[:-1] if line.endswith(b"\r") else line for line in lines], notes
    return lines, notes


def first_fault(lines):
    """The first line that a restore refuses; None where it loads."""
    status, output = run(["restore", "--test"], b"\n".join(lines) + b"\n")
    if (status, output) == (0, b""):
        return None
    found = FAULT.fullmatch(output.rstrip(b"\n"))
    if not found:
        raise Trouble(f"the program ended with status {status} and named no line")
    return Refused(int(found[1]), fault_of(found), None, b"", b"")


def examine(data):
    """What is wrong with a dump: pairs of a line's number, or None, and a sentence; and the refused lines. Rules for IPv6 alone are passed
    over."""
    lines, notes = repaired(data)
    lines = for_ipv4(lines)
    whole = not_a_dump(data, lines)
    if whole:
        return [whole], []
    first = first_fault(lines)
    reading = Reading(lines, first.number if first else None)
    if not reading.sections and not reading.notes:
        return [*notes, (None, b"has no section *filter: make a dump with iptables-save.")], []
    if reading.notes:
        reading = Reading(lines, 0)
    elif not first:
        return notes, []
    refused = refused_lines(reading)
    if not reading.notes and first.number not in [line.number for line in refused]:
        refused.append(first)
    return notes + reading.notes, refused


def findings(notes, refused):
    """What examine found, in the order of the lines."""
    found = [Finding(number or 0, "", sentence) for number, sentence in notes]
    found += [of_fault(line.number, line.fault, line.word, more=line.more) for line in refused]
    return sorted(found, key=lambda each: each.line)


def described(notes, refused):
    """What examine found, as pairs of a line's number, or 0 for the whole file, and a text."""
    return [(each.line, text_of(each)) for each in findings(notes, refused)]
