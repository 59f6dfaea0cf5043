"""The sessions of the shell that pages show: blocks of what is typed after a prompt, and of what comes back."""

import os
import re
import tempfile

from kit import ROOT
from runs import ran

TYPED = re.compile(r"([1-8])> (.*)")


def typed_in(lines):
    """What is typed in the lines of blocks."""
    return [found[2] for found in map(TYPED.fullmatch, lines) if found]


def workplace():
    """A folder in which a session runs: examples/ lies there as it does at the top of the repository."""
    folder = tempfile.TemporaryDirectory()
    os.symlink(f"{ROOT}/examples", f"{folder.name}/examples")
    return folder


def told(program, schema, lines):
    """What the shell prints when these lines come from a pipe, line by line."""
    with workplace() as folder:
        given = "".join(f"{it}\n" for it in lines)
        it = ran(program, ["shell", schema], folder, given=given.encode())
    return [f"status {it.status}", it.err] if it.status or it.err else it.out.splitlines()


def transcript(program, schema, lines):
    """What each of the lines comes to."""
    so_far = [told(program, schema, lines[:count]) for count in range(len(lines) + 1)]
    return [after[len(before) :] for before, after in zip(so_far, so_far[1:])]
