"""Units side by side and what is printed of them: docs/profile/events.md, scripts.md, printed-texts.md."""
import os
import itertools
import re

from database import SYSTEM, Database
from schema import Schema
from script_faults import has_statement, lines_of
from statement import Statement

CODES = {"OPEN": "01", "CLOSE": "02", "FIND": "03", "GET": "04", "STORE": "05", "INSERT": "06", "REMOVE": "07",
         "MODIFY": "08", "DELETE": "09", "KEEP": "10", "FREE": "11"}


class Unit:
    def __init__(self, number, schema, script):
        self.number, self.script, self.at = number, script, 0
        self.run, self.records, self.areas = None, [None] * len(schema.types), [None] * len(schema.areas)
        self.places, self.kept, self.guesses = [None] * len(schema.sets), {}, {}
        self.modes = {}
        self.events, self.wants, self.has_ticket, self.cells, self.held_areas = None, None, False, [], []


def ordinal(n):
    """1st, 2nd, 3rd, 4th .., 11th .., 21st .."""
    return f"{n}th" if n // 10 % 10 == 1 else f"{n}{ {1: 'st', 2: 'nd', 3: 'rd'}.get(n % 10, 'th')}"


def words_of(line):
    return re.findall(r'"[^"]*"|=|[^ ="]+', line)


def statements(text):
    return [words_of(line) for line in lines_of(text) if has_statement(line)]


class Machine:
    def __init__(self, schema, capacity, scripts):
        self.schema, self.db, self.lines = schema, Database(schema, capacity), []
        self.units = [Unit(i + 1, schema, statements(text)) for i, text in enumerate(scripts)]

    def key(self, key):
        if key is None:
            return "-"
        if key == SYSTEM:
            return "SYSTEM"
        return f"{self.schema.types[key[0]].name}:{key[1]}" + (f".{key[2]}" if key[2] > 1 else "")

    def items(self, key):
        kinds, items = self.schema.types[key[0]].pictures, self.db.records[key].items
        shown = {i: v if kinds[i][0] == "9" else f'"{v}"' for i, v in items.items()}
        return "".join(f" {i}={shown[i]}" for i in self.schema.types[key[0]].items)

    def answer(self, statement, cause, shown=None):
        unit = statement.u
        unit.has_ticket = True
        key, with_items = shown or (None, False)
        line = f"{len(self.lines)} {unit.number} {CODES[statement.kind] + cause if cause else '0000'}"
        self.lines.append(line + (" " + self.key(key) if key else "") + (self.items(key) if with_items else ""))

    def is_free(self, unit, wanted):
        others = [u for u in self.units if u is not unit]
        if wanted[0] == "area":
            return not any(a == wanted[1] and (exclusive or wanted[2]) for u in others for _, a, exclusive in u.held_areas)
        return not any(wanted in u.cells for u in others)

    def step(self, number):
        if not 1 <= number <= len(self.units):
            return "I"
        u = self.units[number - 1]
        if u.events is None:
            if u.at == len(u.script):
                return "I"
            u.events, u.has_ticket = Statement(self, u, u.script[u.at]).events(), False
            u.wants = next(u.events)
        if u.wants is not None:
            if not self.is_free(u, u.wants):
                return "B"
            (u.held_areas if u.wants[0] == "area" else u.cells).append(u.wants)
        try:
            u.wants = next(u.events)
        except StopIteration:
            u.events, u.at = None, u.at + 1
        return "M"

    def quit(self, number):
        u = self.units[number - 1] if 1 <= number <= len(self.units) else None
        if u is None or u.events is None or u.has_ticket:
            return "I"
        u.events, u.cells, u.held_areas = None, [], []
        return "M"

    def run_serially(self):
        for unit in self.units:
            while self.step(unit.number) != "I":
                pass

    def run_turns(self, order):
        """Each unit in this order makes its next statement whole; the steps that they make, by their units."""
        for number in (it for it in order if it <= len(self.units)):
            at = self.units[number - 1].at
            while self.units[number - 1].at == at and self.step(number) != "I":
                yield number

    def run_moves(self, text):
        letters = []
        for word in text.split():
            if word[0] == "Q":
                letters.append(self.quit(int(word[1:])))
            else:
                number, _, times = word.partition("*")
                letters += [self.step(int(number)) for _ in range(int(times or 1))]
        return "".join(["MOVES", " " * bool(letters), *letters])

    def image(self):
        for key in sorted(self.db.records):
            yield self.key(key) + self.items(key)
        for s, owner in sorted(self.db.lists):
            members = "".join(" " + self.key(m) for m in self.db.lists[s, owner])
            yield f"{self.schema.sets[s].name} {self.key(owner)}:{members}"
        yield "NEXT" + "".join(f" {self.db.free_number(t)}" for t in range(len(self.schema.types)))
        for a, name in enumerate(self.schema.areas):
            yield f"AREA {name}" + "".join(f" {u}:{mode}" for u, mode in self.db.usage[a])

    def unit_line(self, u):
        def place(it):
            return "-" if it is None else f"{self.key(it[0])}/{'OWNER' if it[1] is None else self.key(it[1])}"
        words = ["UNIT", str(u.number), "RUN", self.key(u.run), "RECORD", *map(self.key, u.records), "SET", *map(place, u.places),
                 "AREA", *map(self.key, u.areas)]
        if u.kept:
            words += ["KEPT", *(f"{self.key(k)}/{u.kept[k]}" for k in sorted(u.kept))]
        return " ".join(words)

    def named(self, key):
        """A key, and whether its record is gone; `none` for no key."""
        if key is None:
            return "none"
        return self.key(key) + (" (deleted)" if key != SYSTEM and key not in self.db.records else "")

    def place_words(self, s, place):
        """Where a unit stands in a set."""
        if place is None and self.schema.sets[s].owner is not None:
            return "none"
        owner, at = place or (SYSTEM, None)
        members = self.db.lists.get((s, owner))
        if at is None:
            what = "no list" if members is None else f"a list of {len(members)}" if members else "an empty list"
            return f"{self.named(owner)}, the owner of {what}"
        if members is None:
            where = "position lost: there is no list of"
        elif at not in members:
            where = "position lost: it is not in the list of"
        else:
            where = f"{ordinal(members.index(at) + 1)} of {len(members)} in the list of"
        return f"{self.named(at)}, {where} {self.named(owner)}"

    def kept_words(self, u):
        """What a unit keeps: docs/profile/program.md."""
        for key in sorted(u.kept):
            is_same = key in self.db.records and self.db.records[key].version == u.kept[key]
            yield f"kept: {self.named(key)}, version {u.kept[key]}" + ("" if is_same else ", changed since")

    def unit_words(self, u):
        """The lines in which `.unit` says what is current of a unit: docs/profile/program.md."""
        yield f"UNIT {u.number}"
        yield f"run-unit: {self.named(u.run)}"
        for t, it in enumerate(self.schema.types):
            yield f"record {it.name}: {self.named(u.records[t])}"
        for s, it in enumerate(self.schema.sets):
            yield f"set {it.name}: {self.place_words(s, u.places[s])}"
        for a, name in enumerate(self.schema.areas):
            mode = dict(self.db.usage[a]).get(u.number)
            yield f"area {name}: {self.named(u.areas[a])}; " + (f"open for {mode}" if mode else "not open")
        yield from (self.kept_words(u) if u.kept else ["kept: nothing"])


def read(path):
    with open(path, encoding="ascii") as file:
        return file.read()


def read_order(folder, word):
    """Moves or turns: the text of the file of this name, or the word itself where there is no such file."""
    return read(f"{folder}/{word}") if os.path.exists(f"{folder}/{word}") else word


def words_in(folder, args="args"):
    return read(f"{folder}/{args}").split("\n")[:-1]


def machine_of(folder, words):
    """The machine before the command with these words, and the texts of its moves and its turns, if it has them."""
    capacity, order, files, first = 100, {"--moves": None, "--turns": None}, [], []
    words = iter(words[1:])
    for word in words:
        if word == "--capacity":
            capacity = int(next(words))
        elif word in order:
            order[word] = read(f"{folder}/{next(words)}")
        elif word == "--first":
            first.append(read(f"{folder}/{next(words)}"))
        elif word != "--explain":
            files.append(read(f"{folder}/{word}"))
    return Machine(Schema(files[0]), capacity, [*files[1:], *first]), order["--moves"], order["--turns"]


def first_turns(machine, words):
    """The turns in which the last unit makes its script before the others, where the command with these words has it do so."""
    last = machine.units[-1]
    return [last.number] * len(last.script) if "--first" in words else []


def turns_in(text):
    """The units of a text of turns, in their order."""
    return [int(it.partition("*")[0]) for it in text.split() for _ in range(int(it.partition("*")[2] or 1))]


def steps_text(units):
    """The text of one step for each of these, in their order."""
    words = [(unit, len(list(it))) for unit, it in itertools.groupby(units)]
    return " ".join(f"{unit}*{times}" if times > 1 else f"{unit}" for unit, times in words) + "\n" * bool(words)


def printed(machine, *head):
    units = [machine.unit_line(u) for u in machine.units]
    return "".join(line + "\n" for line in [*head, *machine.lines, "--", *machine.image(), *units])


def replay(folder, words):
    """What the command with these words prints."""
    machine, moves, turns = machine_of(folder, words)
    list(machine.run_turns(first_turns(machine, words)))
    if moves is not None:
        return printed(machine, machine.run_moves(moves))
    if turns is None:
        machine.run_serially()
    else:
        list(machine.run_turns(turns_in(turns)))
    return printed(machine)


def moves_of_turns(folder, words):
    """What `turns` with these words prints."""
    at = 3 if words[1] == "--capacity" else 1
    machine, _, _ = machine_of(folder, [*words[:at], *words[at + 1 :]])
    return steps_text(machine.run_turns(turns_in(read(f"{folder}/{words[at]}"))))


def threads(folder, words, order):
    """What `threads` with the files of these words prints, where its tickets are drawn by the units in this order."""
    machine, _, _ = machine_of(folder, words)
    list(machine.run_turns(order))
    return printed(machine) + "AUDIT EQUAL\n"
