"""The greatest schemas, scripts, moves and turns that docs/profile allows, including deep and wide ones, those one below each limit and
those one above; and a schema and a script with one change that makes a fault, one for each fault. Each text has the required answer."""

import os
from dataclasses import dataclass, replace

from answers import unexplained
from kit import ROOT, text_of

CARD = f"{ROOT}/tests/cases/open_store_find_get"
SCHEMA, SCRIPT = f"{CARD}/card.schema", f"{CARD}/unit1.script"
AREA, RECORD, ITEM = "AREA NAME IS {}.\n", "RECORD NAME IS {}; WITHIN A0.\n", "02 {} PICTURE IS 9(4).\n"
# A schema and a script that have each form of each sentence and statement.
FORMS = f"{ROOT}/tests/forms"
# A change of the one, and of the other, and the fault that it makes.
SCHEMA_CHANGES = [
    ("1 line 2", "MAIN", "MA\tIN\x7f"),
    ("3 line 4", "LOCATION", "LOCATE"),
    ("4 line 4", "OWNR", "Ownr"),
    ("5 line 7", "RECORD NAME IS PAGE-M", "RECORD NAME IS MAIN"),
    ("6 line 9", "02 PTEXT", "02 PNO"),
    ("7 line 7", "WITHIN SIDE", "WITHIN SYDE"),
    ("8 line 13", "OWNER IS OWNR", "OWNER IS OWNER-R"),
    ("9 line 4", "USING ONO ONAME", "USING ONO NAME-O"),
    ("9 line 14", "KEY IS PNO", "KEY IS LNO"),
    ("10 line 7", "VIA BOTH", "VIA BOOTH"),
    ("11 line 9", "XXX", "XYX"),
    ("12 line 20", "MEMBER IS LINE-M OPTIONAL MANUAL.", "MEMBER IS PAGE-M OPTIONAL MANUAL."),
    ("13 line 15", "MEMBER IS LINE-M MANDATORY MANUAL; KEY IS LNO", "MEMBER IS PAGE-M MANDATORY MANUAL; KEY IS PNO"),
    ("14 line 15", "KEY IS LNO", "KEY IS LTEXT"),
    ("15 line 14", "; KEY IS PNO", ""),
    ("16 line 4", "USING ONO ONAME", "USING A B C D E"),
    ("17 line 10", "  02 LNO PIC IS 9999.\n  02 LTEXT PICTURE IS X(3).\n", ""),
    ("18 line 4", "USING ONO ONAME", "USING ONO ONAME ONO"),
]
SCRIPT_CHANGES = [
    ("1 line 2", "MAIN", "MA\tIN"),
    ("2 line 25", "\nGET\n", "\nFETCH\n"),
    ("3 line 2", "IS UPDATE", "IS"),
    ("4 line 2", "AREA MAIN", "AREA BOTH"),
    ("5 line 4", "STORE OWNR", "STORE BOTH"),
    ("6 line 27", "INTO TITLES", "INTO MAIN"),
    ("7 line 5", "PNO = 7", "LNO = 7"),
    ("8 line 5", 'PTEXT = "ABC"', "PNO = 8"),
    ("9 line 5", "PNO = 7", 'PNO = "7"'),
    ("9 line 24", 'SORTED "ABC"', "SORTED 7"),
    ("10 line 5", "PNO = 7", "PNO = 10000"),
    ("10 line 5", '"ABC"', '"ABCD"'),
    ("10 line 23", "SORTED 7", "SORTED 10000"),
    ("11 line 14", "LAST PAGE-M", "LAST OWNR"),
    ("11 line 15", "NEXT LINE-M", "NEXT PAGE-M"),
    ("12 line 19", "OWNER OF BOTH", "OWNER OF TITLES"),
    ("12 line 20", 'ONO = 1 ONAME = "ONE"\nFIND CALC LINE-M', "ONO = 1\nFIND CALC LINE-M"),
    ("12 line 22", "DUPLICATE OF LINE-M", "DUPLICATE OF PAGE-M"),
    ("12 line 23", "SORTED 7 OF BOTH", "SORTED 7 OF NOTES"),
    ("13 line 7", "PAGE-M:1", "PAGE-M:0"),
    ("13 line 8", "LINE-M:1.2", "LINE-M:1.256"),
]
# What is printed of CARD behind the answers, where no statement was made.
OPENING = "--\nNEXT 1\nAREA MAIN\nUNIT 1 RUN - RECORD - SET AREA -\n"
START = "SCHEMA NAME IS S.\nAREA NAME IS A0.\n"


@dataclass(frozen=True)
class Wanted:
    """What is asked of the program with a text, and how it must end: the beginning of its standard output, all of its standard error."""

    before: tuple
    after: tuple
    out: bytes = b""
    err: bytes = b""
    is_explained: bool = False

    def words(self, path):
        before = [self.before[0], *(["--explain"] if self.is_explained else []), *self.before[1:]]
        return [*before, path, *self.after]

    def is_met(self, path, ran):
        ran = unexplained(path, ran) if self.is_explained else ran
        if self.err:
            return (ran.status, ran.out, ran.err) == (1, b"", self.err)
        return ran.status == 0 and not ran.err and ran.out.startswith(self.out)


def schema(text, out=None, err=None):
    told = f"schema S: {out}\n" if out else f"schema fault {err}\n"
    return "schema", text.encode(), Wanted(("check",), (), *((told.encode(),) if out else (b"", told.encode())))


def script(text, statements=None, err=None):
    if err:
        return "script", text.encode(), Wanted(("check", SCHEMA), (), b"", f"script 1 fault {err}\n".encode())
    told = f"schema CARD: 1 areas, 1 records, 0 sets\nscript 1: {statements} statements\n"
    return "script", text.encode(), Wanted(("check", SCHEMA), (), told.encode())


def moves(text, letters=None, err=None, end=OPENING):
    words = ("replay", "--moves"), (SCHEMA, SCRIPT)
    if err:
        return "moves", text.encode(), Wanted(*words, b"", f"moves fault {err}\n".encode())
    return "moves", text.encode(), Wanted(*words, f"MOVES {letters}\n{end}".encode())


def turns(text, out=OPENING, err=None):
    words = ("replay", "--turns"), (SCHEMA, SCRIPT)
    if err:
        return "turns", text.encode(), Wanted(*words, b"", f"turns fault {err}\n".encode())
    return "turns", text.encode(), Wanted(*words, out.encode())


def record(name, items=1):
    return RECORD.format(name) + "".join(ITEM.format(f"I{it}") for it in range(items))


def a_set(name, owner, members, order="LAST", key=""):
    lines = "".join(f"MEMBER IS {it} OPTIONAL MANUAL{key}.\n" for it in members)
    return f"SET NAME IS {name}; ORDER IS {order}; OWNER IS {owner}.\n{lines}"


def counts(areas, records, sets):
    return f"{areas} areas, {records} records, {sets} sets"


def filled(text, size):
    """A schema filled to this size by blanks."""
    return text + " " * (size - len(text))


def largest():
    """A schema with as much of everything as there may be."""
    text = "SCHEMA NAME IS S.\n" + "".join(AREA.format(f"A{it}") for it in range(8))
    for number in range(16):
        text += f"RECORD NAME IS R{number}; LOCATION MODE IS CALC USING I0 I1 I2 I3 DUPLICATES ARE ALLOWED; WITHIN A{number % 8}.\n"
        text += "".join(f"02 I{it} PICTURE IS {'9(18)' if it % 2 == 0 else 'X(64)'}.\n" for it in range(16))
    for number in range(16):
        members = [f"R{(number + it) % 16}" for it in range(1, 5)]
        text += a_set(f"S{number}", f"R{number}", members, "SORTED ASCENDING DUPLICATES ARE FIRST", "; KEY IS I0")
    return text


def entries_up_to(limit, before, entry, fewer, out):
    """Texts with one entry fewer than there may be, with as many, and with one more, whose last line is at fault."""
    yield schema(before + "".join(entry(it) for it in range(limit - 1)), fewer)
    yield schema(before + "".join(entry(it) for it in range(limit)), out)
    text = before + "".join(entry(it) for it in range(limit + 1))
    at = (before + "".join(entry(it) for it in range(limit))).count("\n") + 1
    yield schema(text, err=f"16 line {at}")


def schemas():
    one = START + record("R")
    yield schema(filled(one, 65_535), counts(1, 1, 0))
    yield schema(filled(one, 65_536), counts(1, 1, 0))
    yield schema(filled(one, 65_537), err="2 line 1")
    yield schema("\x01" * 65_537, err="2 line 1")
    yield schema("\n" * 65_536, err="3 line 65536")
    yield schema(largest(), counts(8, 16, 16))
    for areas in (7, 8):
        yield schema("SCHEMA NAME IS S.\n" + "".join(AREA.format(f"A{it}") for it in range(areas)) + record("R"), counts(areas, 1, 0))
    yield schema("SCHEMA NAME IS S.\n" + "".join(AREA.format(f"A{it}") for it in range(9)), err="16 line 10")
    yield from entries_up_to(16, START, lambda it: record(f"R{it}"), counts(1, 15, 0), counts(1, 16, 0))
    yield from entries_up_to(16, START + RECORD.format("R"), lambda it: ITEM.format(f"I{it}"), counts(1, 1, 0), counts(1, 1, 0))
    two = START + record("R") + record("Q")
    yield from entries_up_to(16, two, lambda it: a_set(f"S{it}", "R", ["Q"]), counts(1, 2, 15), counts(1, 2, 16))
    six = START + "".join(record(f"R{it}") for it in range(6)) + "SET NAME IS S0; ORDER IS LAST; OWNER IS R5.\n"
    yield from entries_up_to(4, six, lambda it: f"MEMBER IS R{it} OPTIONAL MANUAL.\n", counts(1, 6, 1), counts(1, 6, 1))
    yield from names_and_pictures()
    yield from deep_and_wide()


def names_and_pictures():
    for picture in ("9(17)", "9" * 17, "9(18)", "9" * 18, "X(63)", "X" * 63, "X(64)", "X" * 64, "9(01)"):
        yield schema(START + RECORD.format("R") + f"02 I PICTURE IS {picture}.\n", counts(1, 1, 0))
    for picture in ("9(19)", "9" * 19, "X(65)", "X" * 65, "9(001)", "X(0)", "9" * 60_000):
        yield schema(START + RECORD.format("R") + f"02 I PICTURE IS {picture}.\n", err="11 line 4")
    for length in (29, 30):
        yield schema(START + record("R" * length), counts(1, 1, 0))
    yield schema(START + record("R" * 31), err="4 line 3")
    yield schema("SCHEMA NAME IS " + "S" * 65_000, err="4 line 1")
    calc = "RECORD NAME IS R; LOCATION MODE IS CALC USING {} DUPLICATES ARE ALLOWED; WITHIN A0.\n"
    items = "".join(ITEM.format(it) for it in "ABCDE")
    for calc_items in ("A B C", "A B C D"):
        yield schema(START + calc.format(calc_items) + items, counts(1, 1, 0))
    yield schema(START + calc.format("A B C D E") + items, err="16 line 3")


def deep_and_wide():
    sixteen = START + "".join(record(f"R{it}") for it in range(16))
    chain = "".join(a_set(f"S{it}", f"R{it}", [f"R{it + 1}"]) for it in range(15))
    ring = chain + a_set("S15", "R15", ["R0"])
    star = "".join(a_set(f"S{it}", "R0", ["R1", "R2", "R3", "R4"]) for it in range(16))
    for text, sets in [(chain, 15), (ring, 16), (star, 16)]:
        yield schema(sixteen + text, counts(1, 16, sets))
        yield "schema", (sixteen + text).encode(), Wanted(("replay", "--capacity", "1000"), (os.devnull,), b"--\n")
    yield "schema", largest().encode(), Wanted(("replay", "--capacity", "1000"), (os.devnull,) * 8, b"--\n")


def scripts():
    yield script(("* " + "x" * 997 + "\n") * 1048 + "\n" * 575, 0)
    yield script(("* " + "x" * 997 + "\n") * 1048 + "\n" * 576, 0)
    yield script(("* " + "x" * 997 + "\n") * 1048 + "\n" * 577, err="14 line 1")
    yield script("\x01" * 1_048_577, err="14 line 1")
    yield script("\n" * 1_048_576, 0)
    yield script("GET\n" * 65_534, 65_534)
    yield script("GET\n" * 65_535, 65_535)
    yield script("GET\n" * 65_535 + "* no statement\n\n", 65_535)
    yield script("GET\n" * 65_536, err="14 line 65536")
    yield script("GET\n" * 65_535 + "FETCH\n", err="14 line 65536")
    yield script("GET" + " " * 996, 1)
    yield script("GET" + " " * 997, 1)
    yield script("GET" + " " * 998, err="1 line 1")
    yield script("GET" + " " * 997 + ".\r\n", 1)
    yield script("GET " * 250, err="5 line 1")
    yield script("STORE CUSTOMER" + " CNO = 1" * 120, err="8 line 1")
    yield script("A" * 1_000_000, err="1 line 1")


def changes():
    """The schema and the script of FORMS, each change of them apart."""
    schema_text, script_text = text_of(f"{FORMS}/schema"), text_of(f"{FORMS}/script")
    for err, old, new in SCHEMA_CHANGES:
        yield schema(schema_text.replace(old, new, 1), err=err)
    for err, old, new in SCRIPT_CHANGES:
        told = f"script 1 fault {err}\n".encode()
        yield "script", script_text.replace(old, new, 1).encode(), Wanted(("check", f"{FORMS}/schema"), (), b"", told)


def all_moves():
    one = "M" * 7 + "M" * 13 + "M" * 7 + "M" * 7
    yield moves("1*1000000", one + "I" * (1_000_000 - len(one)), end=text_of(f"{CARD}/stdout"))
    yield moves("9 " * 999_999, "I" * 999_999)
    yield moves("9 " * 1_000_000, "I" * 1_000_000)
    yield moves("Q1\n" * 1_000_000, "I" * 1_000_000)
    yield moves("9*999999", "I" * 999_999)
    yield moves("9*999999 " + "9", "I" * 1_000_000)
    yield moves("9 " * 1_000_001, err="2 word 1000001")
    yield moves("9*1000000 9*1000000", err="2 word 2")
    yield moves("9*1000001", err="1 word 1")
    yield moves(" " * 4_000_000 + "9", "I")
    yield moves("9" * 4_000_000, err="1 word 1")
    yield moves("1*" + "9" * 4_000_000, err="1 word 1")


def all_turns():
    yield turns("1*1000000", text_of(f"{CARD}/stdout"))
    yield turns("9 " * 999_999)
    yield turns("9*999999")
    yield turns("9 " * 1_000_000)
    yield turns("9 " * 1_000_001, err="2 word 1000001")
    yield turns("9*1000001", err="1 word 1")
    yield turns(" " * 4_000_000 + "9")
    yield turns("9" * 4_000_000, err="1 word 1")
    yield turns("9*1000000 Q1", err="1 word 2")


def texts():
    """All of them: the kind of each, its bytes, and what is wanted. Those that have a fault come twice, the second time explained."""
    plain = [*schemas(), *scripts(), *changes(), *all_moves(), *all_turns()]
    return [*plain, *((kind, text, replace(wanted, is_explained=True)) for kind, text, wanted in plain if wanted.err)]
