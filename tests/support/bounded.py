"""Runs the built program within 2 processor seconds and 1 GB, and the cases on which it is run."""

import glob
import multiprocessing
import os
import resource
import signal
from dataclasses import dataclass, field

from kit import ROOT

# The options that have no word behind them.
ALONE = ("--all", "--answers", "--brief", "--echo", "--explain", "--no-explain", "--programs", "--status", "--svg", "--threads", "--trace")
# What one run may take: seconds of a processor, bytes of memory, and seconds by the clock before it is ended.
SECONDS = 2
BYTES = 1 << 30
CLOCK = 120
WANT = b"want of memory\n"


@dataclass(frozen=True)
class Ran:
    """How a run ended: its exit status (below nought for a signal), what it wrote, the processor seconds that it took, and how often it
    touched a page of memory that it did not have yet."""

    status: int
    out: bytes
    err: bytes
    seconds: float
    pages: int

    def is_within(self):
        """Whether it ended by itself and in time."""
        return self.status >= 0 and self.seconds <= SECONDS


@dataclass(frozen=True)
class Case:
    """A case: the folder in which it runs, its words, and how it must end."""

    name: str
    folder: str
    words: tuple
    status: int
    out: bytes
    err: bytes
    moves: str = field(default="")
    turns: str = field(default="")

    def parts(self):
        """The options before the schema, each with its word if it has one; and the words from the schema on."""
        options, words = [], list(self.words[1:])
        while words and words[0].startswith("--"):
            count = 1 if words[0] in ALONE else 2
            options, words = [*options, words[:count]], words[count:]
        return options, words

    def files(self):
        """The paths of the schema and the scripts, those that are made first and last behind the others."""
        around = [it[1] for option in ("--first", "--then") for it in self.parts()[0] if it[0] == option]
        return [os.path.join(self.folder, it) for it in [*self.parts()[1], *around]]

    def options(self):
        """The words before the schema, without files and the wish to have a fault explained."""
        return [self.words[0], *(it for option in self.parts()[0] if option[0] not in ("--first", "--then", "--moves", "--turns", "--explain") for it in option)]


def bytes_of(path):
    with open(path, "rb") as it:
        return it.read()


def bytes_if_any(path):
    return bytes_of(path) if os.path.isfile(path) else b""


def read_case(folder):
    words = tuple(bytes_of(f"{folder}/args").decode().splitlines())
    moves, turns = (words[words.index(it) + 1] if it in words else "" for it in ("--moves", "--turns"))
    texts = [bytes_if_any(f"{folder}/{it}") for it in ("stdout", "stderr")]
    return Case(os.path.basename(folder), folder, words, int(bytes_if_any(f"{folder}/status") or 0), *texts, moves, turns)


def cases():
    """Each case of tests/cases, and each system of examples/."""
    folders = [os.path.dirname(it) for it in glob.glob(f"{ROOT}/tests/cases/*/args") + glob.glob(f"{ROOT}/examples/*/args")]
    return [read_case(it) for it in sorted(folders)]


def within_memory():
    """Holds this process, and what it starts, to the memory that a run may take."""
    resource.setrlimit(resource.RLIMIT_AS, (BYTES, BYTES))


def taken(file):
    """What was written to a file in memory, which is then empty again."""
    size = os.fstat(file).st_size
    text = os.pread(file, size, 0)
    os.ftruncate(file, 0)
    os.lseek(file, 0, os.SEEK_SET)
    return text


class Runner:
    """Runs the program in this process's folder; its standard output and error go to files in memory."""

    def __init__(self, program):
        self.program, self.files = program, [os.memfd_create(it) for it in ("out", "err")]
        self.actions = [(os.POSIX_SPAWN_DUP2, file, to) for file, to in zip(self.files, (1, 2))]
        signal.signal(signal.SIGALRM, lambda *_: None)

    def run(self, words, environment=None):
        process = os.posix_spawn(self.program, [self.program, *words], environment or {}, file_actions=self.actions)
        timer = signal.signal(signal.SIGALRM, lambda *_: os.kill(process, signal.SIGKILL))
        signal.setitimer(signal.ITIMER_REAL, CLOCK)
        _, status, used = os.wait4(process, 0)
        signal.setitimer(signal.ITIMER_REAL, 0)
        signal.signal(signal.SIGALRM, timer)
        texts = [taken(it) for it in self.files]
        return Ran(os.waitstatus_to_exitcode(status), *texts, used.ru_utime + used.ru_stime, used.ru_minflt)


def workers(start, words):
    """Processes, one for each processor, each of which first calls `start`."""
    return multiprocessing.get_context("fork").Pool(os.cpu_count(), start, words)
