"""The faults of a trace of any bytes, read against a schema without faults for a number of units: docs/profile/traces.md."""
import re

from script_faults import GREATEST_GENERATION, GREATEST_NUMBER, KEY, LONGEST_LINE, Line, has_statement, is_number, is_text, is_within, line_faults, lines_of

LONGEST_TRACE, MOST_LINES = 67_108_864, 524_280


def halves(rest):
    """The statement and the answer on both sides of the first arrow outside of a text; nothing where there is none."""
    inside = False
    for at, letter in enumerate(rest):
        if not inside and rest.startswith("=>", at):
            return rest[:at].removeprefix(" ").removesuffix(" "), rest[at + 2 :]
        inside ^= letter == '"'
    return None


def are_items(schema, record, words):
    """Whether these words give a value to each item of the record type, in the order of the schema, and no more."""
    pictures = schema.types[schema.type[record]].pictures
    if len(words) != 3 * len(pictures):
        return False
    for (item, picture), name, sign, value in zip(pictures.items(), words[::3], words[1::3], words[2::3]):
        wrong = []
        if name != item or sign != "=" or not (is_number(value) or is_text(value)):
            return False
        Line.judge_value(picture, value, wrong.append)
        if wrong:
            return False
    return True


def is_answer(schema, text):
    """Whether a status stands there, and it may be a key, and it may be the items of its record type."""
    words = re.findall(r'"[^"]*"|=|[^ ="]+', text)
    if text.count('"') % 2 or not words or not re.fullmatch(r"\d{4}", words[0]):
        return False
    if len(words) == 1:
        return True
    key = KEY.fullmatch(words[1])
    if not key or is_text(words[1]) or key[1] not in schema.type or not is_within(key[2], GREATEST_NUMBER):
        return False
    if key[3] and not is_within(key[3], GREATEST_GENERATION):
        return False
    return len(words) == 2 or are_items(schema, key[1], words[2:])


def entry_fault(schema, units, line):
    """The first fault of a line that holds a statement, from left to right; nothing where there is none."""
    if re.search(r"[^ -~]", line):
        return 1
    unit, colon, rest = line.partition(":")
    if not colon or not re.fullmatch(r"[0-9]+", unit) or not 0 < int(unit) <= units:
        return 31
    parts = halves(rest)
    if parts is None:
        return 32
    statement = parts[0].removesuffix(".")
    if not has_statement(statement):
        return 2
    faults = line_faults(schema, 1, statement)
    if faults:
        return min(faults).number
    return 0 if is_answer(schema, parts[1]) else 33


def line_fault(schema, units, line):
    """The fault of any line; nothing where it has none."""
    if has_statement(line):
        return entry_fault(schema, units, line)
    return 1 if len(line) > LONGEST_LINE or re.search(r"[^ -~]", line) else 0


def trace_refusal(schema, units, text):
    """The number and the line of a trace's first fault; nothing where it has none. Its bytes are given as characters of the same numbers."""
    if len(text) > LONGEST_TRACE:
        return 14, 1
    count, judged = 0, {}
    for number, line in enumerate(lines_of(text), 1):
        if line not in judged:
            judged[line] = has_statement(line), line_fault(schema, units, line)
        is_made, fault = judged[line]
        count += is_made
        if is_made and count > MOST_LINES:
            return 14, number
        if fault:
            return fault, number
    return None
