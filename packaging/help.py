"""What the program says of itself, read from its own help: the commands, and of each its words and options."""

import os
import re
import subprocess
from dataclasses import dataclass

TEST = f"{os.path.dirname(os.path.realpath(__file__))}/test"

# An entry of a list: what is typed, and at least two blanks behind it what it means.
ENTRY = re.compile(r" {2,6}(\S.*?)(?: {2,}(\S.*))?")
# What stands further in than this goes on with the entry above.
DEEPEST = 6


@dataclass(frozen=True)
class Entry:
    """A line of a list: what is typed, and what it means."""

    words: str
    means: str

    def flags(self):
        """The spellings of an option, as `-h` and `--help`."""
        return re.findall(r"(?<!\S)--?[a-zA-Z][a-z-]*", self.words)

    def value(self):
        """What an option has behind it, as FILE or N; nothing where it stands alone."""
        found = re.search(r"<(\w+)>", self.words)
        return found[1] if found else ""


@dataclass(frozen=True)
class Help:
    """The help of the program or of one of its commands: what it does, its lists by their headings, what stands behind them."""

    name: str
    about: str
    usage: str
    lists: dict
    example: str

    def commands(self):
        return [it for it in self.lists.get("Commands", []) if it.words != "help"]

    def options(self):
        return self.lists.get("Options", [])


def entries(lines):
    """The entries of a list; a line that is further in goes on with the one above."""
    found = []
    for line in lines:
        is_new = len(line) - len(line.lstrip()) <= DEEPEST
        if is_new:
            words, means = ENTRY.fullmatch(line.rstrip()).groups()
            found.append(Entry(words, means or ""))
        else:
            found[-1] = Entry(found[-1].words, f"{found[-1].means} {line.strip()}".strip())
    return found


def parts(text):
    """The text in its parts, each the lines between two that are empty."""
    return [it.split("\n") for it in re.split(r"\n{2,}", text.strip("\n"))]


def read(name, text):
    """The help of this name, from what `--help` prints."""
    about, usage, lists, rest = [], "", {}, []
    for lines in parts(text):
        heading = re.fullmatch(r"([A-Z]\w+):", lines[0])
        if lines[0].startswith("Usage: "):
            usage = re.sub(r"Usage: \S+ *", "", " ".join(it.strip() for it in lines)).strip()
        elif heading:
            lists[heading[1]] = entries(lines[1:])
        elif usage:
            rest += lines
        else:
            about += lines
    return Help(name, " ".join(about), usage, lists, "\n".join(rest))


def of_program(program):
    """The help of the program with that of `dbtg test`, which stands beside it, and of each command."""

    def told(*words):
        return subprocess.run([*words, "--help"], check=True, capture_output=True, text=True, env={**os.environ, "COLUMNS": "1000"}).stdout

    whole, test = read("dbtg", told(program)), read("dbtg-test", told(TEST, program))
    commands = [read(f"dbtg-{it.words}", told(program, it.words)) for it in whole.commands()]
    whole.lists["Commands"].append(Entry("test", test.about))
    return whole, [*commands, test]
