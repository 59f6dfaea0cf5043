"""A fault of a text, by where it is found: the faults of a schema or a script are a list, and the first of them is the refusal."""
from dataclasses import dataclass


@dataclass(frozen=True, order=True)
class Fault:
    """The place at which it is found, its rank among the faults found there, and what is told of it: its number and its line."""

    place: tuple
    rank: int
    number: int
    line: int


class Unread(Exception):
    """Fault 3: what follows is not read."""


def refusal(faults):
    """The number and the line of the first fault; nothing where there is none."""
    first = min(faults, default=None)
    return first and (first.number, first.line)
