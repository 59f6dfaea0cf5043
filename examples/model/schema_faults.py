"""The faults of a schema of any bytes: docs/profile/schema-language.md. Places are words, counted from 0; the text's end is the last."""
import re

from faults import Fault, Unread, refusal

LONGEST_TEXT = 65_536
RESERVED = set("""SCHEMA NAME AREA RECORD LOCATION MODE CALC USING DUPLICATES NOT ALLOWED VIA SET WITHIN PICTURE PIC ORDER FIRST LAST NEXT
PRIOR SORTED ASCENDING DESCENDING OWNER SYSTEM MEMBER MANDATORY OPTIONAL AUTOMATIC MANUAL KEY OCCURRENCE SELECTION THRU CURRENT OF IS ARE
OPEN CLOSE FIND GET STORE INSERT INTO REMOVE FROM MODIFY DELETE ONLY SELECTIVE ALL USAGE-MODE PROTECTED EXCLUSIVE RETRIEVAL UPDATE RUN-UNIT
DUPLICATE SUPPRESS KEEP FREE""".split())
NAME = re.compile(r"[A-Z](?:[A-Z0-9-]{0,28}[A-Z0-9])?")
PICTURE = re.compile(r"([9X])\((\d{1,2})\)|(9+)|(X+)")
LONGEST_ITEM = {"9": 18, "X": 64}
MOST = {"AREA": 8, "RECORD": 16, "SET": 16, "02": 16, "MEMBER": 4, "CALC": 4}
SELECTION = "SET OCCURRENCE SELECTION THRU CURRENT OF SET".split()
# The ranks of what is found at one word: a byte; the checks of the record type that ends before it; then the word's own faults.
BYTE, ENDED, SURPLUS, NO_NAME, OWN, GRAMMAR, AT_THE_END = range(0, 700, 100)


def is_name(word):
    return bool(NAME.fullmatch(word)) and word not in RESERVED


def picture(word):
    """The kind and the length that a picture says; nothing where it is none."""
    found = PICTURE.fullmatch(word)
    if not found:
        return None
    kind, length = word[0], int(found[2]) if found[2] else len(word)
    return (kind, length) if 1 <= length <= LONGEST_ITEM[kind] else None


class Type:
    """A record type as far as it was read: the place of its word RECORD, its CALC items with their places, its items' pictures."""

    def __init__(self, place):
        self.place, self.calc, self.pictures = place, [], {}


class Set:
    """A set as far as it was read: whether it is sorted, its owner, its members, and the picture of the first one's key."""

    def __init__(self):
        self.is_sorted, self.owner, self.members, self.key = False, None, [], None


class Reader:
    """Reads a schema sentence by sentence, and notes its faults, as far as it has words where the grammar wants some."""

    def __init__(self, text):
        lines = text.split("\n")
        self.last_line = max(1, len(lines) - (not lines[-1]))
        words = [(word, line) for line, it in enumerate(lines, 1) for word in re.findall(r"\.|[^ \t\r,;.]+", it)]
        self.words = [it for it in words if it[0] not in ("IS", "ARE")]
        self.at, self.faults = 0, []
        self.areas, self.types, self.sets, self.named, self.via = [], {}, [], set(), []
        self.type_count = 0

    # words

    def note(self, number, rank, place=None, line=None):
        place = self.at if place is None else place
        self.faults.append(Fault((place,), rank, number, self.line(place) if line is None else line))

    def line(self, place):
        return self.words[place][1] if place < len(self.words) else self.last_line

    def next(self):
        """The word that comes next, or nothing at the text's end."""
        return self.words[self.at][0] if self.at < len(self.words) else None

    def stop(self):
        self.note(3, GRAMMAR)
        raise Unread

    def want(self, *words):
        """Takes one of these words, and gives it."""
        if self.next() not in words:
            self.stop()
        self.at += 1
        return self.words[self.at - 1][0]

    def entry(self, word, count):
        """Takes the first word of an entry, with this many of its kind before it."""
        if self.next() == word and count >= MOST[word]:
            self.note(16, SURPLUS)
        self.want(word)

    def name(self):
        """Takes a word in a name's place, and gives it with its place."""
        if self.next() in (None, "."):
            self.stop()
        if not is_name(self.next()):
            self.note(4, NO_NAME)
        self.at += 1
        return self.words[self.at - 1][0], self.at - 1

    def new_name(self):
        """A name that no area, record type or set has."""
        word, place = self.name()
        if word in self.named:
            self.note(5, OWN, place)
        self.named.add(word)
        return word

    def known(self, names, number):
        """A name that is one of these; else it has this fault."""
        word, place = self.name()
        if word not in names:
            self.note(number, OWN, place)
        return word

    # sentences

    def schema(self):
        self.want("SCHEMA")
        self.want("NAME")
        self.name()
        self.want(".")
        self.area()
        while self.next() == "AREA":
            self.area()
        self.record()
        while self.next() == "RECORD":
            self.record()
        while self.next() is not None:
            self.set()
        for word, place in self.via:
            if word not in self.sets:
                self.note(10, AT_THE_END, len(self.words), self.line(place))

    def area(self):
        self.entry("AREA", len(self.areas))
        self.want("NAME")
        self.areas.append(self.new_name())
        self.want(".")

    def record(self):
        made = Type(self.at)
        self.entry("RECORD", self.type_count)
        self.type_count += 1
        self.want("NAME")
        self.types.setdefault(self.new_name(), made)
        if self.want("LOCATION", "WITHIN") == "LOCATION":
            self.location(made)
            self.want("WITHIN")
        self.known(self.areas, 7)
        self.want(".")
        count = 0
        while self.next() == "02":
            self.item(made, count)
            count += 1
        if self.next() in ("RECORD", "SET", None):
            self.end_type(made)

    def location(self, made):
        self.want("MODE")
        if self.want("CALC", "VIA") == "VIA":
            self.via.append(self.name())
            self.want("SET")
            return
        self.want("USING")
        made.calc.append(self.name())
        while self.next() != "DUPLICATES":
            if len(made.calc) >= MOST["CALC"] and self.next() not in (None, "."):
                self.note(16, SURPLUS)
            made.calc.append(self.name())
        self.want("DUPLICATES")
        if self.want("NOT", "ALLOWED") == "NOT":
            self.want("ALLOWED")

    def item(self, made, count):
        self.entry("02", count)
        word, place = self.name()
        if word in made.pictures:
            self.note(6, OWN, place)
        self.want("PICTURE", "PIC")
        if self.next() in (None, "."):
            self.stop()
        if not picture(self.next()):
            self.note(11, OWN)
        made.pictures.setdefault(word, picture(self.next()))
        self.at += 1
        self.want(".")

    def end_type(self, made):
        """The checks of a record type that the word before us, or the text's end, ends."""
        if not made.pictures:
            self.note(17, ENDED, line=self.line(made.place))
        seen = set()
        for rank, (word, place) in enumerate(made.calc, ENDED + 1):
            if word not in made.pictures and word not in seen:
                self.note(9, rank, line=self.line(place))
            elif word in made.pictures and word in seen:
                self.note(18, rank, line=self.line(place))
            seen.add(word)

    def set(self):
        made = Set()
        self.entry("SET", len(self.sets))
        self.want("NAME")
        self.sets.append(self.new_name())
        self.want("ORDER")
        made.is_sorted = self.want("FIRST", "LAST", "NEXT", "PRIOR", "SORTED") == "SORTED"
        if made.is_sorted:
            self.sorting()
        self.want("OWNER")
        if self.next() == "SYSTEM":
            self.want("SYSTEM")
        else:
            made.owner = self.known(self.types, 8)
        self.want(".")
        self.member(made)
        while self.next() == "MEMBER":
            self.member(made)

    def sorting(self):
        self.want("ASCENDING", "DESCENDING")
        self.want("DUPLICATES")
        if self.want("FIRST", "LAST", "NOT") == "NOT":
            self.want("ALLOWED")

    def member(self, made):
        first_word, key = self.at, None
        self.entry("MEMBER", len(made.members))
        name = self.known(self.types, 8)
        self.want("MANDATORY", "OPTIONAL")
        self.want("AUTOMATIC", "MANUAL")
        if self.next() == "KEY":
            self.want("KEY")
            pictures = self.types[name].pictures if name in self.types else {}
            key = (self.known(pictures, 9), pictures)
        if self.next() == "SET":
            for it in SELECTION:
                self.want(it)
        if self.next() == ".":
            self.end_member(made, name, key and key[1].get(key[0]), key is not None, self.line(first_word))
        self.want(".")

    def end_member(self, made, name, key, has_key, line):
        """The checks at a member's period, in their order."""
        wrong = [
            (12, name == made.owner),
            (13, name in made.members),
            (15, has_key != made.is_sorted),
            (14, made.key is not None and key is not None and key != made.key),
        ]
        for rank, (number, applies) in enumerate(wrong, OWN):
            if applies:
                self.note(number, rank, line=line)
        made.members.append(name)
        made.key = made.key or key


def schema_faults(text):
    """The faults of a schema, in no order. Its bytes are given as characters of the same numbers."""
    if len(text) > LONGEST_TEXT:
        return [Fault((-1,), 0, 2, 1)]
    reader = Reader(text)
    for place, (word, line) in enumerate(reader.words):
        if re.search(r"[^ -~]", word):
            reader.note(1, BYTE, place, line)
    try:
        reader.schema()
    except Unread:
        pass
    return reader.faults


def schema_refusal(text):
    """The number and the line of a schema's first fault; nothing where it has none."""
    return refusal(schema_faults(text))
