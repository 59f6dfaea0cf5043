"""Runs the program on folders that say what must come out: its words in `args`, a word a line, and standard output, standard error and
exit status in `stdout`, `stderr` and `status`; without one of these nothing, nothing and 0. What it reads from standard input is `stdin`.
A folder with several runs has `args.NAME`, `stdout.NAME` and so on for each further one. A run works in a copy of its folder."""

import difflib
import os
import shutil
import subprocess
import tempfile
from dataclasses import dataclass
from pathlib import Path

# The most lines that are shown of a difference.
SHOWN = 12
# A run that takes longer is ended, and has failed.
SECONDS = 60


@dataclass(frozen=True)
class Outcome:
    """What a run printed, and how it ended."""

    stdout: bytes
    stderr: bytes
    status: int

    def parts(self):
        """The files that say so, each with what it says where it is not there."""
        return {"stdout": (self.stdout, b""), "stderr": (self.stderr, b""), "status": (b"%d\n" % self.status, b"0\n")}

    def has_ended(self):
        """By itself, and not by a signal or because it took too long."""
        return self.status >= 0


@dataclass(frozen=True)
class Case:
    """A run of a folder: `of` is empty, or `.NAME` of a further run."""

    folder: Path
    of: str

    def __str__(self):
        return f"{self.folder}{' ' if self.of else ''}{self.of.removeprefix('.')}"

    def words(self):
        return self.text("args", b"").decode(errors="surrogateescape").removesuffix("\n").split("\n")

    def text(self, name, missing):
        path = self.folder / f"{name}{self.of}"
        return path.read_bytes() if path.exists() else missing

    def is_new(self):
        """Nothing says yet what must come out."""
        return not any((self.folder / f"{it}{self.of}").exists() for it in ("stdout", "stderr", "status"))

    def run(self, program):
        """Runs the program on the folder's words, in a copy of the folder."""
        with tempfile.TemporaryDirectory(prefix="case-") as scratch:
            place = shutil.copytree(self.folder, f"{scratch}/case")
            try:
                ran = subprocess.run([program, *self.words()], cwd=place, input=self.text("stdin", b""), capture_output=True, timeout=SECONDS)
            except subprocess.TimeoutExpired as late:
                return Outcome(late.stdout or b"", b"has not ended after %d seconds\n" % SECONDS, -1)
        return Outcome(ran.stdout, ran.stderr, ran.returncode)

    def differences(self, outcome):
        """The lines in which an outcome is not what the folder says."""
        lines = []
        for name, (is_now, missing) in outcome.parts().items():
            wanted = self.text(name, missing)
            if is_now.strip() != wanted.strip() if name == "status" else is_now != wanted:
                lines += shown(name, wanted, is_now)
        return lines

    def write(self, outcome):
        """Has the folder say that this outcome must come out."""
        for name, (is_now, missing) in outcome.parts().items():
            path = self.folder / f"{name}{self.of}"
            path.unlink(missing_ok=True)
            if is_now != missing:
                path.write_bytes(is_now)


def shown(name, wanted, is_now):
    """What differs, as a difference of two texts, not longer than a screen."""
    texts = [it.decode(errors="backslashreplace").splitlines() for it in (wanted, is_now)]
    lines = list(difflib.unified_diff(*texts, f"{name} wanted", f"{name} printed", lineterm="", n=1))
    if not lines:
        lines = [f"--- {name} wanted", f"+++ {name} printed", "the last line feed is not alike"]
    return [*lines[:SHOWN], *([f".. and {len(lines) - SHOWN} lines more"] if len(lines) > SHOWN else [])]


def cases_below(folder):
    """The runs of a folder and of those below it, in the order of their names."""
    found = sorted(path for path in Path(folder).rglob("args*") if path.is_file() and path.name.removeprefix("args")[:1] in ("", "."))
    return [Case(it.parent, it.name.removeprefix("args")) for it in found]
