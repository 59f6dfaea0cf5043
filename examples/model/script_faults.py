"""The faults of a script of any bytes, read against a schema without faults: docs/profile/scripts.md. A place is a line and a word of it."""
import re

from faults import Fault, Unread, refusal

LONGEST_TEXT, LONGEST_LINE, MOST_STATEMENTS = 1_048_576, 1_000, 65_535
GREATEST_NUMBER, GREATEST_GENERATION = 999_999, 255
KEY = re.compile(r"([^:]+):(\d+)(?:\.(\d+))?")
# A line as a whole is judged before its words.
WHOLE = -1
# The ranks of what is found at a line's end behind a word that is missing.
MEMBER, CALC, SORTED_VALUE = 11, 12, 13


def lines_of(text):
    """The lines, without what is dropped at their ends."""
    lines = text.split("\n")
    if not lines[-1]:
        lines.pop()
    return [it.removesuffix("\r").removesuffix(".") for it in lines]


def has_statement(line):
    return bool(line.strip(" ")) and not line.startswith("*")


def is_text(word):
    return word.startswith('"')


def is_number(word):
    return bool(re.fullmatch(r"\d+", word))


def is_within(digits, greatest):
    """Whether a number of any digits is from 1 to this."""
    value = digits.lstrip("0")
    return 0 < len(value) <= len(str(greatest)) and int(value) <= greatest


class Line:
    """Reads one statement word by word, and notes its faults, as far as it has words where the grammar wants some."""

    def __init__(self, schema, number, line):
        self.schema, self.number, self.faults, self.at = schema, number, [], 0
        self.words = re.findall(r'"[^"]*"|=|[^ ="]+', line)

    # words

    def note(self, number, rank=0, place=None):
        self.faults.append(Fault((self.number, self.at if place is None else place), rank, number, self.number))

    def next(self):
        return self.words[self.at] if self.at < len(self.words) else None

    def take(self):
        self.at += 1
        return self.words[self.at - 1]

    def stop(self):
        self.note(3)
        raise Unread

    def want(self, *words):
        if self.next() not in words:
            self.stop()
        return self.take()

    def name(self):
        """Takes a word in a name's place."""
        if self.next() is None or self.next() == "=" or is_text(self.next()):
            self.stop()
        return self.take()

    def known(self, number, names, name, place):
        """Gives a name where it is one of these; else it has this fault, at this word."""
        if name in names:
            return name
        self.note(number, place=place)
        return None

    def known_here(self, number, names):
        """Takes a name whose kind is known when it is read."""
        place = self.at
        return self.known(number, names, self.name(), place)

    def known_before(self, kinds):
        """Takes a name and the word behind it that says its kind, and gives both; the name is judged at that word."""
        name, place = self.name(), self.at
        kind = self.want(*kinds)
        number, names = {"AREA": (4, self.schema.areas), "RECORD": (5, self.schema.type), "SET": (6, self.schema.number)}[kind]
        return self.known(number, names, name, place), kind

    # statements

    def statement(self):
        if self.next() not in FORMS:
            self.note(2)
            return
        FORMS[self.take()](self)
        if self.next() is not None:
            self.stop()

    def area(self):
        self.want("AREA")
        self.known_here(4, self.schema.areas)

    def open(self):
        self.area()
        self.want("USAGE-MODE")
        if self.next() == "IS":
            self.take()
        if self.want("PROTECTED", "EXCLUSIVE", "RETRIEVAL", "UPDATE") in ("PROTECTED", "EXCLUSIVE"):
            self.want("RETRIEVAL", "UPDATE")

    def close(self):
        self.area()

    def get(self):
        if self.next() is not None:
            self.known_here(5, self.schema.type)

    def store(self):
        self.values(self.known_here(5, self.schema.type), ends=(None, "SUPPRESS"))
        self.suppress()

    def modify(self):
        self.values(self.known_here(5, self.schema.type), ends=(None,), wants_one=True)

    def insert(self):
        self.want("INTO")
        self.known_here(6, self.schema.number)

    def remove(self):
        self.want("FROM")
        self.known_here(6, self.schema.number)

    def delete(self):
        if self.next() is not None:
            self.want("ONLY", "SELECTIVE", "ALL")

    def keep(self):
        pass

    def free(self):
        if self.next() is not None:
            self.want("ALL")

    def find(self):
        form = FINDS.get(self.next())
        if form:
            self.take()
            form(self)
        elif self.next() == "NEXT" and self.words[self.at + 1 : self.at + 2] == ["DUPLICATE"]:
            self.find_duplicate()
        else:
            self.find_which()
        self.suppress()

    def find_key(self):
        found = KEY.fullmatch(self.next() or "")
        if not found:
            self.stop()
        self.known(5, self.schema.type, found[1], self.at)
        if not is_within(found[2], GREATEST_NUMBER):
            self.note(13, 1)
        if found[3] and not is_within(found[3], GREATEST_GENERATION):
            self.note(13, 2)
        self.take()

    def find_current(self):
        self.want("OF")
        if self.next() == "RUN-UNIT":
            self.take()
        else:
            self.known_before(("RECORD", "SET", "AREA"))

    def find_owner(self):
        self.want("OF")
        name, _ = self.known_before(("SET",))
        if name and self.schema.sets[self.schema.number[name]].owner is None:
            self.note_at_end(12, CALC)

    def find_calc(self):
        name, _ = self.known_before(("RECORD",))
        self.want("USING")
        items = self.values(name, ends=(None, "SUPPRESS"), wants_one=True)
        calc = self.schema.types[self.schema.type[name]].calc if name else []
        if not calc or sorted(calc) != sorted(items):
            self.note_at_end(12, CALC)

    def find_duplicate(self):
        self.at += 2
        self.want("OF")
        name, _ = self.known_before(("RECORD",))
        if name and not self.schema.types[self.schema.type[name]].calc:
            self.note_at_end(12, CALC)

    def find_sorted(self):
        value = self.next() or ""
        if not is_number(value) and not is_text(value):
            self.stop()
        self.take()
        self.want("OF")
        name, _ = self.known_before(("SET",))
        if name is None:
            return
        number = self.schema.number[name]
        if not self.schema.sorted(number):
            self.note_at_end(12, CALC)
            return
        member, (_, _, key) = next(iter(self.schema.sets[number].members.items()))
        self.judge_value(self.schema.types[member].pictures[key], value, lambda it: self.note_at_end(it, SORTED_VALUE))

    def find_which(self):
        which = self.next() or ""
        if which not in ("FIRST", "LAST", "NEXT", "PRIOR"):
            if not re.fullmatch(r"-?\d+", which):
                self.stop()
            if not is_within(which.removeprefix("-"), GREATEST_NUMBER):
                self.note(13)
        self.take()
        record = None if self.next() == "OF" else self.known_before(("RECORD",))[0]
        self.want("OF")
        name, kind = self.known_before(("SET", "AREA"))
        if record is None or name is None:
            return
        number = self.schema.type[record]
        if kind == "SET":
            fits = number in self.schema.sets[self.schema.number[name]].members
        else:
            fits = self.schema.types[number].area == self.schema.areas.index(name)
        if not fits:
            self.note_at_end(11, MEMBER)

    # parts of statements

    def note_at_end(self, number, rank):
        self.note(number, rank, len(self.words))

    def values(self, record, ends, wants_one=False):
        """Takes items with values up to one of these words, and gives the items; without a record type they are not judged."""
        pictures = self.schema.types[self.schema.type[record]].pictures if record else None
        items = []
        while self.next() not in ends or (wants_one and not items):
            place = self.at
            item = self.name()
            if pictures is not None and self.known(7, pictures, item, place) and item in items:
                self.note(8, place=place)
            items.append(item)
            self.want("=")
            value = self.next() or ""
            if not is_number(value) and not is_text(value):
                self.stop()
            if pictures and item in pictures:
                self.judge_value(pictures[item], value, self.note)
            self.take()
        return items

    @staticmethod
    def judge_value(picture, value, note):
        """Notes what is wrong with a value for an item of this picture."""
        kind, length = picture
        if is_text(value) != (kind == "X"):
            note(9)
        elif (len(value) - 2 if kind == "X" else len(value.lstrip("0"))) > length:
            note(10)

    def suppress(self):
        if self.next() != "SUPPRESS":
            return
        self.take()
        if self.next() == "ALL":
            self.take()
            return
        self.suppressed()
        while self.next() is not None:
            self.suppressed()

    def suppressed(self):
        if self.next() in ("RECORD", "AREA"):
            self.take()
        else:
            self.known_here(6, self.schema.number)


FORMS = {it.upper(): getattr(Line, it) for it in "open close find get store insert remove modify delete keep free".split()}
FINDS = {it.upper(): getattr(Line, f"find_{it}") for it in "key current owner calc sorted".split()}


def line_faults(schema, number, line):
    """The faults of a line, without that of too many statements."""
    found = []
    if len(line) > LONGEST_LINE or re.search(r"[^ -~]", line):
        found.append(Fault((number, WHOLE), 1, 1, number))
    if not has_statement(line):
        return found
    if line.count('"') % 2:
        return [*found, Fault((number, WHOLE), 2, 3, number)]
    read = Line(schema, number, line)
    try:
        read.statement()
    except Unread:
        pass
    return found + read.faults


def script_faults(schema, text):
    """The faults of the first line that has some. The script's bytes are given as characters of the same numbers."""
    if len(text) > LONGEST_TEXT:
        return [Fault((-1, 0), 0, 14, 1)]
    count, judged = 0, {}
    for number, line in enumerate(lines_of(text), 1):
        if line not in judged:
            judged[line] = has_statement(line), line_faults(schema, number, line)
        is_made, faults = judged[line]
        count += is_made
        if is_made and count > MOST_STATEMENTS:
            return [Fault((number, WHOLE), 0, 14, number), *line_faults(schema, number, line)]
        if faults:
            return faults
    return []


def script_refusal(schema, text):
    """The number and the line of a script's first fault; nothing where it has none."""
    return refusal(script_faults(schema, text))
