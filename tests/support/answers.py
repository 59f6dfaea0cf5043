"""How the program must answer any text, to the byte, by the model of docs/profile (examples/model), which is written from the pages alone:
which fault the text has, or what is printed if it has none."""

import functools
import os
import re
import sys
from dataclasses import replace

import bounded
from kit import ROOT

sys.path.insert(0, f"{ROOT}/examples/model")
from machine import Machine, machine_of, printed, turns_in
from schema import Schema
from schema_faults import schema_refusal
from script_faults import has_statement, lines_of, script_refusal

MOVE = re.compile(rb"(Q?)([1-9][0-9]?)|([1-9][0-9]?)\*([1-9][0-9]{0,6})")
TURN = re.compile(rb"()([1-9][0-9]?)|([1-9][0-9]?)\*([1-9][0-9]{0,6})")
MOST_MOVES = 1_000_000


def unexplained(path, ran):
    """A run without the line that --explain adds to a fault. That line names the file and the same place; a run that has another, or
    none, is given a line that no answer has."""
    first, _, second = ran.err.partition(b"\n")
    place = re.fullmatch(rb"(?:schema|script 1|moves|turns) fault \d+ (line|word) (\d+)", first)
    if not place:
        return ran
    named = path.encode() + (b":%s: " if place[1] == b"line" else b": word %s: ") % place[2]
    is_told = second.startswith(named) and re.fullmatch(rb"[ -~]+\n", second[len(named) :])
    return replace(ran, err=first + (b"\n" if is_told else b" is not explained\n"))


def characters(text):
    """A text of any bytes, each as the character of its number."""
    return text.decode("latin-1")


@functools.lru_cache(maxsize=None)
def schema_at(path):
    """The schema in a file; nothing where it has a fault."""
    text = characters(bounded.bytes_if_any(path))
    return None if schema_refusal(text) else Schema(text)


def statement_count(text):
    """How many statements a script has, if it has no fault."""
    return sum(map(has_statement, lines_of(characters(text))))


def order_refusal(text, shape):
    """The number and the word of the first fault of moves or turns, whose words have this shape; nothing where there is none."""
    total, steps = 0, {}
    for number, word in enumerate(re.findall(rb"[^ \t\r\n]+", text), 1):
        if word not in steps:
            found = shape.fullmatch(word)
            steps[word] = int(found[4] or 1) if found else MOST_MOVES + 1
        if steps[word] > MOST_MOVES:
            return 1, number
        total += steps[word]
        if total > MOST_MOVES:
            return 2, number
    return None


def told(kind, text, schema=None):
    """What is told of the text's first fault; nothing where it has none. A script is read against the schema in this file."""
    if kind == "schema":
        fault, form = schema_refusal(characters(text)), b"schema fault %d line %d\n"
    elif kind == "script":
        fault, form = script_refusal(schema_at(schema), characters(text)), b"script 1 fault %d line %d\n"
    else:
        fault, form = order_refusal(text, MOVE if kind == "moves" else TURN), kind.encode() + b" fault %d word %d\n"
    return form % fault if fault else b""


def checked(text):
    """What `check` prints of a schema without faults."""
    schema = Schema(characters(text))
    return f"schema {schema.name}: {len(schema.areas)} areas, {len(schema.types)} records, {len(schema.sets)} sets\n"


def replayed(kind, text, case):
    """What `replay` prints of a text without faults in the place of the case's."""
    if kind == "script":
        machine = Machine(schema_at(case.files()[0]), 100, [characters(text)])
        machine.run_serially()
        return printed(machine)
    machine, _, _ = machine_of(case.folder, [*case.options(), *(os.path.relpath(it, case.folder) for it in case.files())])
    if kind == "moves":
        return printed(machine, machine.run_moves(characters(text)))
    for _ in machine.run_turns(turns_in(characters(text))):
        pass
    return printed(machine)


def is_well_answered(kind, text, case, ran):
    """Whether a run on a text of this kind, in the place of the case's, ended as it must."""
    fault = told(kind, text, case and case.files()[0])
    if fault:
        return (ran.status, ran.out, ran.err) == (1, b"", fault)
    out = checked(text) if kind == "schema" else replayed(kind, text, case)
    return (ran.status, ran.out, ran.err) == (0, out.encode(), b"")
