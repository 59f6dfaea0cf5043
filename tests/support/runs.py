"""Runs of the built program to their ends."""

import subprocess
from typing import NamedTuple

# A run that takes longer is ended, and its test fails.
SECONDS = 60


class Ran(NamedTuple):
    """How a run ended: its exit status (below nought for a signal), and what it wrote."""

    status: int
    out: str
    err: str


def ran_raw(program, words, folder=None, given=b"", seconds=SECONDS, meanwhile=None, **how):
    """Runs the program on these words, in a folder, with these bytes as its standard input, and gives the bytes that it wrote. `meanwhile` is
    called with the process beside it. `how` says what else is done with its streams, and in front of the program."""
    how = {"stdin": subprocess.PIPE, "stdout": subprocess.PIPE, "stderr": subprocess.PIPE} | how
    with subprocess.Popen([program, *words], cwd=folder, **how) as process:
        try:
            if meanwhile:
                meanwhile(process)
            out, err = process.communicate(given if process.stdin else None, seconds)
        except BaseException:
            process.kill()
            raise
    return Ran(process.returncode, out or b"", err or b"")


def ran(program, words, folder=None, **how):
    """The same with what it wrote as text."""
    it = ran_raw(program, words, folder, **how)
    return Ran(it.status, *(text.decode(errors="replace") for text in it[1:]))
