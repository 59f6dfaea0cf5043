"""Edits of a crate: wrong bodies, each a file of lines that says which text replaces which.
`file: PATH` names a file of src/, `in: FUNCTION` a function of it (`name` or `Type::name`), and pairs `old: TEXT` and `new: TEXT` say what
changes: each old text occurs exactly once in the file, or in the function that is named. An edit that changes more than bodies of functions,
such as a constant, says in `refused: PATH` which function has to be refused, as a check names it below the crate. An edit that tests/edits/NAMED
lists and against which the prover finds no values names in `test: NAME` a test that fails with it. An edit that no contract can refuse says
why in `unseen: WHY`, and is not checked: a test sees it, at the line `fails: LINE`, within `timeout: SECONDS`; with `twin: TEXT` in place of
the new text, which changes no meaning, it passes. `without: GOAL` names a goal of which the answer by hand does not fit the changed body: it
is left out from the start, as are answers that the search finds by itself, since a second check would leave them out."""

import os
import re
from pathlib import Path

from functions import functions_of, module_of
from kit import text_of

# An answer by hand that the search tries by itself: it is there to save the search other attempts.
SEARCHED = "= grind (arith, common_steps)"


class Sources:
    """The source files of a crate by their paths in it, with their functions, and its types, each with the module that declares it."""

    def __init__(self, folder):
        self.folder, self.crate = folder, os.path.basename(folder)
        self.texts = {str(it.relative_to(folder)): it.read_text("utf-8") for it in sorted(Path(folder, "src").rglob("*.rt"))}
        self.functions = {file: functions_of(text, file) for file, text in self.texts.items()}
        declared = re.compile(r"(?m)^(?:pub(?:\(\w+\))? )?(?:struct|enum) (\w+)")
        self.declared = {name: module_of(file) for file, text in self.texts.items() for name in declared.findall(text)}

    def proofs(self, function):
        """The folders below proofs/ of what is written by hand of a function, of its closures, and of the cycle of calls that it is in,
        which is named after all that are in it: `+closure+name`."""
        own, closures = (it.replace("::", "/") for it in function.names(self.declared))
        module = os.path.dirname(own)
        cycles = [it.name for it in Path(self.folder, "proofs", module).glob("+*") if function.name in it.name.split("+")]
        return [own, closures, *(os.path.join(module, it) for it in cycles)]

    def answers(self, folder):
        """The answers in a folder below proofs/, each by its goal: the file, the line at which it begins, and its text."""
        file = f"{folder}/Answers.antt"
        text = text_of(f"{self.folder}/proofs/{file}") if os.path.isfile(f"{self.folder}/proofs/{file}") else ""
        begun = [(it[1], it.start()) for it in re.finditer(r"(?m)^pub (\S+) : goal", text)]
        ends = [*(at for _, at in begun[1:]), len(text)]
        return {goal: (file, text.count("\n", 0, at) + 1, text[at:end].strip()) for (goal, at), end in zip(begun, ends)}

    def place(self, file, inside, old):
        """Where an old text stands in a file, or in a function of it: it does so once."""
        first, end = (inside.start, inside.end) if inside else (0, None)
        count = self.texts[file].count(old, first, end)
        if count != 1:
            raise ValueError(f"an old text stands {count} times, and not once: {old[:80]}")
        at = self.texts[file].index(old, first)
        return at, at + len(old)


class Edit:
    """An edit: the pieces that it puts into files, as pairs of the file and the place with the new text; the functions whose bodies it
    changes; the names of those that have to be refused, what the names of their closures begin with, and the folders of what is written by
    hand of them; and the answers in these that are left out, as pairs of the file and a line."""

    def __init__(self, path, sources):
        text = text_of(path)
        self.name = path.stem
        said = (re.findall(rf"(?m)^{it}: (\S.*)$", text) for it in ("refused", "test", "unseen", "fails", "timeout"))
        self.refused, self.tests, self.unseen, self.fails, self.timeout = said
        self.pieces, self.twins = list(pieces_of(text, sources, "new")), list(pieces_of(text, sources, "twin"))
        inside = [next((it for it in sources.functions[file] if it.opens <= at and end <= it.end), None) for file, (at, end, _) in self.pieces]
        if not self.pieces or not self.unseen and (None in inside) != bool(self.refused):
            raise ValueError("it changes nothing, or does not name the function that has to be refused where, and only where, it changes more than bodies")
        if self.unseen and not (self.tests and self.fails and self.timeout and self.twins):
            raise ValueError("no contract sees it, and it does not say by a test, its line, a time and a twin what does")
        changed = list(dict.fromkeys(filter(None, inside)))
        named = [it for each in sources.functions.values() for it in each if it.names(sources.declared)[0] in self.refused]
        judged = named if self.refused else changed
        if not judged and not self.unseen:
            raise ValueError("there is no function that has to be refused")
        self.functions = list(dict.fromkeys(changed + named))
        names = {it: it.names(sources.declared) for it in judged}
        self.paths = [f"{sources.crate}::{names[it][0]}" for it in judged]
        self.closures = tuple(f"{sources.crate}::{names[it][1]}::" for it in judged)
        folders = [at for it in judged for at in sources.proofs(it)]
        self.proofs = tuple(f"{at}/" for at in folders)
        answers = {goal: it for at in folders for goal, it in sources.answers(at).items()}
        without = re.findall(r"(?m)^without: (\S+)$", text)
        if unknown := set(without) - set(answers):
            raise ValueError(f"there is no answer by hand to {', '.join(unknown)}, which it leaves out")
        self.left_out = {(file, line) for goal, (file, line, words) in answers.items() if goal in without or words.endswith(SEARCHED)}

    def leave_out(self, errors):
        """Leaves out the answers at which these errors stand; whether there is one that was not left out before."""
        new = {(file, line) for file, line, _ in errors if file.endswith("/Answers.antt")} - self.left_out
        self.left_out |= new
        return bool(new)

    def is_harmless(self):
        """Whether the edit changes no meaning: it stands among the others to show that such a one is told from them."""
        return self.name.startswith("harmless")


def pieces_of(text, sources, kind):
    """The pieces of an edit's text, in the order of its lines, with the texts of the lines of this kind."""
    file = inside = old = None
    for word, rest in re.findall(r"(?m)^(\w+): ?(.*)$", text):
        if word == "file":
            file, inside = rest, None
            if file not in sources.texts:
                raise ValueError(f"{file} is no source file of the crate")
        elif word == "in":
            found = [it for it in sources.functions.get(file, []) if it.shown() == rest]
            if len(found) != 1:
                raise ValueError(f"{file} has {len(found)} functions {rest}, and not one")
            inside = found[0]
        elif word == "old":
            old = rest
        elif word == kind:
            if not file or not old:
                raise ValueError("a new text stands before any file or old text")
            yield file, (*sources.place(file, inside, old), rest)


def in_rounds(edits):
    """Puts each edit into the first round in which no other changes a function that it changes; one that changes more than bodies goes
    alone."""
    rounds = []
    for it in edits:
        for one in rounds:
            if not any(it.refused or other.refused or set(it.functions) & set(other.functions) for other in one):
                one.append(it)
                break
        else:
            rounds.append([it])
    return rounds


def with_pieces(text, pieces):
    """The text with new parts in their places."""
    for at, end, new in sorted(pieces, reverse=True):
        text = text[:at] + new + text[end:]
    return text
