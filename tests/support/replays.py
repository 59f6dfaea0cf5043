"""The replayed workloads of tests/tools/workloads, on which tests measure what the program takes, and the page that says how much it may."""

import os
import subprocess
import tempfile
from dataclasses import dataclass

from kit import ROOT, text_of

# The page with the figures.
PAGE = f"{ROOT}/docs/TESTING.md"


@dataclass(frozen=True)
class Replay:
    """A replayed workload: its name, how many statements its scripts have, and the words behind the program that replay it."""

    name: str
    statements: int
    words: list


def replay_in(folder, name, capacity, scripts):
    """The workload that was written to this folder."""
    files = [f"{folder}/script{it}" for it in range(1, scripts + 1)]
    moves = ["--moves", f"{folder}/moves"] if os.path.isfile(f"{folder}/moves") else []
    statements = sum(text_of(it).count("\n") for it in files)
    return Replay(name, statements, ["replay", "--capacity", capacity, *moves, f"{folder}/schema", *files])


def replays(wanted, *options):
    """These workloads, or all if none is named, as tests/tools/workloads writes them by these options; they are gone after the last."""
    with tempfile.TemporaryDirectory() as folder:
        subprocess.run([f"{ROOT}/tests/tools/workloads", *options, folder], check=True)
        for name, command, capacity, scripts in (line.split() for line in text_of(f"{folder}/list").splitlines()):
            if command == "replay" and (not wanted or name in wanted):
                yield replay_in(f"{folder}/{name}", name, capacity, int(scripts))
