"""Why a line is refused: each code with its text, and its status."""

TEXTS = {
    "C1": "no command", "C2": "two commands", "C3": "wrong number of words", "C4": "other table",
    "P1": "unknown option", "P2": "value missing", "P3": "bad value", "P4": "repeated option", "P5": "inversion not allowed", "P6": "protocol needed",
    "P7": "unknown match", "P8": "too many matches", "P9": "both jump and goto", "P10": "text too long", "P11": "option of another target",
    "P12": "match option missing",
    "T1": "no such chain", "T2": "chain exists", "T3": "bad chain name", "T4": "number out of range", "T5": "no such rule", "T6": "chain not empty",
    "T7": "chain referenced", "T8": "built-in chain", "T9": "not a built-in chain", "T10": "loop", "T11": "target chain missing",
    "T12": "target is built-in", "T13": "interface not allowed in this chain", "T14": "chain full", "T15": "too many chains", "T16": "bad policy",
    "R1": "line not allowed here", "R2": "bad chain line", "R3": "duplicate chain line", "R4": "end before COMMIT", "R5": "bad quoting",
    "R6": "line too long",
    "F1": "unknown key", "F2": "key missing", "F3": "bad packet value", "F4": "field not carried",
    "S1": "unknown line", "S2": "bad restore line", "S3": "end word missing",
}
# No line is refused so for what it says: only where memory is.
NO_MEMORY = {"M0": "no memory"}


class Fault(Exception):
    """A refusal. `word` is the word that was refused, where a later reader asks for it."""

    def __init__(self, code, word=None):
        super().__init__(code)
        self.code, self.word = code, word


def need(holds, code):
    if not holds:
        raise Fault(code)


def text_of(code):
    return {**TEXTS, **NO_MEMORY}[code]


def status_of(code):
    """1 for the table and the lines of a restore, 4 for memory, else 2."""
    return {"T": 1, "R": 1, "M": 4}.get(code[0], 2)
