"""The lines of a dump that the program refuses, each asked by itself, for bin/check, whose head says what that means, and bin/fit."""

import bisect
import collections
import difflib
import re

from commands.program import Session, Word, words_of

LINE_LIMIT = 10240
CHAIN_LIMIT = 8192
SESSION_WORDS = (b"iptables", b"iptables-save", b"iptables-restore", b"packet", b"lines")
TABLES = (b"filter", b"nat", b"mangle", b"raw", b"security")
BUILT_IN = (b"INPUT", b"FORWARD", b"OUTPUT")
LISTING_COMMANDS = (b"-S", b"--list-rules")
NAMING_COMMANDS = (b"-N", b"--new-chain", b"-E", b"--rename-chain")
TABLE_OPTIONS = (b"-t", b"--table")
COUNTERS = re.compile(rb"\[[0-9]+:[0-9]+\]")
OF_OPTIONS = ("P2", "P4", "P6", "P8", "P9", "P11", "T13")
MATCH_OPTIONS = (b"-m", b"--match")
# After how many words of the command stands what a refusal of the table is about; of -E the new name for T2 and T3.
PLACES = {"C1": 0, "T1": 1, "T2": 1, "T3": 1, "T4": 2, "T5": 1, "T6": 1, "T7": 1, "T8": 1, "T9": 1, "T14": 1, "T15": 1, "T16": 2}

# `text` is what is asked of a line: a command without the counters before it, else the line. `asks` are pairs of places in the
# session and the codes that count there, all where it is None. `chain` is the name of a chain line, and the number of its section.
Question = collections.namedtuple("Question", "number text asks chain")
# `more` says more of the word.
Refused = collections.namedtuple("Refused", "number fault option word value more", defaults=(b"",))


def is_passed_over(line):
    return line.strip(b" \t")[:1] in (b"", b"#")


def section_of(line):
    """The name of the section that a line opens, or was to open; None for other lines."""
    words = words_of(line) if line.strip(b" \t")[:1] in (b"*", b'"') else None
    if not words or not words[0].value.startswith(b"*"):
        return None
    return b" ".join(word.value for word in words)[1:].strip(b" ").split(b" ")[0]


def filter_lines(lines):
    """The numbered lines of the sections filter, but comments and the lines that open and end a section."""
    section = None
    for number, line in enumerate(lines, 1):
        if section is None:
            section = section_of(line)
        elif line.strip(b" \t") == b"COMMIT":
            section = None
        elif section == b"filter" and not is_passed_over(line):
            yield number, line


class Reading:
    """The questions about the lines of a dump, in one session. Lines before `first` are known to be accepted, and all where it is None:
    then no line of a section is asked."""

    def __init__(self, lines, first):
        self.session, self.questions, self.notes = Session(), [], []
        self.first, self.sections, self.openings = first, 0, []
        self.section, self.opening = None, None
        for number, line in enumerate(lines, 1):
            self.read(number, line)
        if self.section is not None:
            self.question(len(lines), self.opening, self.session.restore([b"*" + self.section], b"-t"))

    def question(self, number, text, places):
        self.questions.append(Question(number, text, ((places, None),), None))

    def ask_in_section(self, number, line):
        """Asks a line in a section of its own, which is tried on an empty table and not put in place."""
        self.question(number, line, self.session.restore([b"*filter", line, b"COMMIT"], b"-t"))

    def read(self, number, line):
        if len(line) > LINE_LIMIT:
            self.ask_in_section(number, line)
            if self.section == b"filter" and line.startswith(b":"):
                self.session.ask(b"iptables -N " + line[1:].split(b" ")[0][:LINE_LIMIT // 2])
        elif is_passed_over(line):
            pass
        elif self.section is not None and line.strip(b" \t") == b"COMMIT":
            self.section = None
        elif section_of(line) is not None:
            self.open(number, line, section_of(line))
        elif self.section is None:
            self.question(number, line, self.session.restore([line], b"-t"))
        elif self.section == b"filter" and self.first is not None:
            self.read_in_filter(number, line, words_of(line))

    def open(self, number, line, name):
        """A line that opens a section, or stands in one that has no COMMIT, and what stands in for a name that isn't known."""
        if self.section == b"filter":
            self.ask_in_section(number, line)
        elif self.section is not None:
            sentence = b"*%s stands in the section %s, which has no COMMIT before it, so it is skipped too."
            self.notes.append((number, sentence % (name[:40], self.opening)))
        elif len(words_of(line)) > 1:
            self.question(number, line, self.session.restore([line, b"COMMIT"], b"-t"))
        self.opening = b"*" + (name if len(name) <= 40 else name[:37] + b"...")
        if name not in TABLES:
            meant = difflib.get_close_matches(name.decode("latin-1").lower(), ["filter"])
            asked = b": did you mean *filter?" if meant else b"."
            self.notes.append((number, b"%s is no table of iptables, so its section is skipped%s" % (self.opening, asked)))
            name = b"filter" if meant else name
        self.section = name
        if name == b"filter":
            self.sections, self.names = self.sections + 1, set()
            self.openings.append(number)
            self.session.restore([b"*filter", b"COMMIT"])

    def read_in_filter(self, number, line, words):
        if words and words[0].value.startswith(b":"):
            self.read_chain(number, line, words[0])
            return
        text = line[words[0].end:] if words and COUNTERS.fullmatch(words[0].value) else line
        asked = b"iptables " + text
        if len(asked) > LINE_LIMIT or words and any(word.value in LISTING_COMMANDS for word in words):
            self.question(number, text, self.session.restore([b"*filter", line, b"COMMIT"], b"-n"))
        else:
            self.question(number, text, self.session.ask(asked))
        if words is None and text.startswith(b":"):
            self.session.ask(b"iptables -N " + text[1:].split(b" ")[0])
        elif words and words[0].value.strip().upper() == b"COMMIT":
            self.section = None

    def read_chain(self, number, line, first):
        """A chain line. Its form is asked by itself, and its name beside a line of the same name; the chain is made whatever they say."""
        name, option = first.value[1:], line[first.start:first.end].replace(b":", b"", 1)
        known, asks = name in self.names, []
        if number >= self.first:
            asks.append((self.session.restore([b"*filter", line, b"COMMIT"], b"-t"), None))
        if known and number >= self.first:
            asks.append((self.session.restore([b"*filter", line[:first.end] + b" -", line, b"COMMIT"], b"-t"), ("R3",)))
        asks.append((self.session.ask(b"iptables -N " + option), ("T15",)))
        if not known and name not in BUILT_IN:
            self.session.ask(b"iptables -F " + option)
        self.names.add(name)
        self.questions.append(Question(number, line, tuple(asks), (self.sections, name)))

    def refused(self):
        """Asks, and returns the pairs of a refused line's question and its fault."""
        self.session.run()
        accepted, pairs = set(), []
        for question in self.questions:
            found = [(self.session.fault(places), codes) for places, codes in question.asks]
            faults = [fault for fault, codes in found
                      if fault and (codes is None or fault.code in codes and (fault.code != "R3" or question.chain in accepted))]
            if faults:
                pairs.append((question, faults[0]))
            elif question.chain:
                accepted.add(question.chain)
        return pairs


class Search:
    """The refused word of a line, which is found by asking about beginnings of the line."""

    def __init__(self, question, fault):
        self.number, self.fault, self.text, self.codes = question.number, fault, question.text, (fault.code,)
        self.option = self.word = self.form = None
        self.words = words_of(self.text)
        if self.words is None or fault.code in ("R5", "R6"):
            self.words = [Word(*found.span(), found.group()) for found in re.finditer(rb"[^ \t]+", self.text)]
        self.begin()

    def begin(self):
        """Takes the word that is known by its place, or says what is to be asked."""
        code, words = self.fault.code, self.words
        start = 2 if words and words[0].value in TABLE_OPTIONS else 0
        if code == "R6":
            self.word = b"%d bytes" % len(self.text)
        elif self.text[:1] == b":" and code[0] == "T" or code in ("R1", "R3", "R4") or code == "R2" and len(words) == 1:
            self.word = words[0]
        elif code in PLACES:
            place = start + PLACES[code] + (code in ("T2", "T3") and words[start].value in NAMING_COMMANDS[2:])
            self.word = words[min(place, len(words) - 1)] if words else None
        else:
            self.prepare(start)

    def prepare(self, start):
        """What is asked in place of the line: for a target that is refused the rule in a chain that may have each condition."""
        if self.fault.code in ("T10", "T11", "T12", "T13"):
            chain = self.words[start + 1]
            after = self.words[start + 2] if start + 2 < len(self.words) else chain
            rest = after.end if after.value.isdigit() else chain.end
            own = self.fault.code == "T13"
            self.text = b"-A " + (self.text[chain.start:chain.end] if own else b"FORWARD") + self.text[rest:]
            self.words = words_of(self.text)
            self.codes = ("T13",) if own else ("T11", "T12")
        marks = tuple((place, word.value) for place, word in enumerate(self.words) if word.value[:1] in (b"-", b"!"))
        self.form = (self.codes, len(self.words), marks)

    def ask(self, session, count):
        """Asks about the first words. A chain line of one word isn't asked, since it lacks its policy."""
        return () if count == 1 and self.codes == ("R2",) else self.ask_about(session, self.text[:self.words[count - 1].end])

    def ask_about(self, session, text):
        """Asks by a line of the session, or by a restore where the text is a chain line or leaves no room for `iptables`."""
        line = b"iptables " + text
        if self.codes == ("R2",) or len(line) > LINE_LIMIT:
            return session.restore([b"*filter", text, b"COMMIT"], b"-t")
        return session.ask(line)

    def settle(self, codes):
        """Finds the word by the codes that the program gave to the beginnings of one word, two words and so on."""
        place = len(codes)
        while place and codes[place - 1] in (*self.codes, "P2"):
            place -= 1
        while place < len(codes) and codes[place] not in self.codes:
            place += 1
        if place < len(codes):
            option = place
            while option and codes[option - 1] == "P2":
                option -= 1
            self.take(place, option)

    def take(self, place, option):
        """The beginnings are refused from the word at a place on; its option stands at `option`, or a `!` before it."""
        if self.words[option].value == b"!" and option + 1 < len(self.words):
            option += 1
        self.places = place, option
        self.option = self.words[option].value
        of_value = self.option in MATCH_OPTIONS or (self.fault.code, self.option) == ("P6", b"--reject-with")
        self.word = self.words[option if self.fault.code in OF_OPTIONS and not of_value else place]

    def refused(self):
        """The line with the word as it stands there, and the word's value."""
        word = self.word
        shown, value = (self.text[word.start:word.end], word.value) if isinstance(word, Word) else (word or b"", b"")
        return Refused(self.number, self.fault, self.option, shown, value)


def ask_beginnings(searches):
    session = Session()
    asked = [[search.ask(session, count + 1) for count in range(len(search.words))] for search in searches]
    session.run()
    for search, places in zip(searches, asked):
        search.settle([session.code(place) for place in places])


def ask_alike(pairs):
    """Asks whether the second line of each pair is refused at the same place as the first, which has the same options there."""
    session, asked = Session(), []
    for known, search in pairs:
        if known.word:
            place, option = known.places
            asked.append((known, search, search.ask(session, place + 1), search.ask(session, option) if option else ()))
    session.run()
    for known, search, upto, before in asked:
        if session.code(upto) in search.codes and session.code(before) not in search.codes:
            search.take(*known.places)


def ask_masks(searches):
    """Asks which of the two values of `--tcp-flags` is refused: the first is given as both."""
    session, asked = Session(), []
    for search in searches:
        if search.fault.code == "P3" and search.option == b"--tcp-flags" and search.places[0] == search.places[1] + 2:
            mask = search.words[search.places[1] + 1]
            asked.append((search, mask, search.ask_about(session, search.text[:mask.end] + b" " + search.text[mask.start:mask.end])))
    session.run()
    for search, mask, places in asked:
        if session.code(places) == "P3":
            search.word = mask


def locate(pairs):
    """What is refused in each line. Lines of one form, the same but for values, are likely to be refused at the same place."""
    searches = [Search(*pair) for pair in pairs]
    groups = collections.defaultdict(list)
    for search in searches:
        if search.form:
            groups[search.form].append(search)
    ask_beginnings([group[0] for group in groups.values()])
    others = [(group[0], search) for group in groups.values() for search in group[1:]]
    ask_alike(others)
    ask_beginnings([search for _, search in others if not search.word])
    ask_masks(searches)
    return searches


def counted(refused, openings):
    """Of the lines for which a chain of a section has no room the first alone, with the number of rules that the chain was to have."""
    over = collections.defaultdict(list)
    for line in refused:
        if line.fault.code == "T14":
            over[bisect.bisect(openings, line.number), line.value].append(line)
    said = {lines[0].number: f"{CHAIN_LIMIT + len(lines):,} rules, of {CHAIN_LIMIT:,} at most".encode() for lines in over.values()}
    return [line._replace(more=said.get(line.number, b"")) for line in refused if line.fault.code != "T14" or line.number in said]


def refused_lines(reading):
    """The refused lines of a dump, without those that are refused for the name of a chain that couldn't be made."""
    missing, result = set(), []
    for line in (search.refused() for search in locate(reading.refused())):
        code, name = line.fault.code, line.value
        if code in ("T3", "T15"):
            missing.add(name[name.startswith(b":"):])
        if code not in ("T1", "T11", "P3") or name not in missing:
            result.append(line)
    return counted(result, reading.openings)
