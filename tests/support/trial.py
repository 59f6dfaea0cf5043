"""Tries edits of a crate: in one check as many as change different functions of it, since functions are proved one by one against the
contracts of the others. An edit passes only if the search for a proof fails at a goal of the function that it changes. If an answer by hand
does not fit the changed body, the goal may still be true: the edit is tried again without that answer."""

import subprocess
import tempfile
from concurrent.futures import ThreadPoolExecutor
from pathlib import Path

import kit
from edits import Edit, Sources, in_rounds
from stand_ins import make_copy
from verdicts import LET_THROUGH, OPEN, REFUSED, Said

EDITS = f"{kit.ROOT}/tests/edits"


class Trial:
    """The edits of one crate, and what became of each. `room` is how many checks may run at a time, of all crates."""

    def __init__(self, crate, room, log, libraries):
        self.crate, self.room, self.log, self.libraries = crate, room, log, libraries
        self.sources, self.results = Sources(f"{kit.ROOT}/crates/{crate}"), []
        # The kit's own gate tries those of `must-fail` too.
        found = [path for at in (f"{EDITS}/{crate}", f"{self.sources.folder}/must-fail") for path in Path(at).glob("*.edit")]
        self.files = {it.stem: it for it in sorted(found)}
        self.named = [it.partition("/")[2] for it in kit.text_of(f"{EDITS}/NAMED").split("\n") if it.startswith(f"{crate}/")]

    def read(self, names):
        """The edits of these names that can be applied; the others have failed."""
        edits = []
        for it in names:
            try:
                edits.append(Edit(self.files[it], self.sources))
            except KeyError:
                self.tell(it, False, "there is no such edit")
            except ValueError as why:
                self.tell(it, False, f"cannot be applied: {why}")
        return edits

    def look(self):
        """Sees that each edit can be applied and each named one is there, and that one check can try those of these that change bodies
        alone, a harmless one among them."""
        edits = self.read(dict.fromkeys([*self.files, *self.named]))
        self.results += [True] * len(edits)
        rounds = in_rounds([it for it in edits if it.name in self.named and not it.refused])
        if len(rounds) != 1 or not any(it.is_harmless() for it in rounds[0]):
            self.tell("NAMED", False, "two of the named edits change one function, or none is harmless")

    def run(self, names):
        """Tries the edits of these names that a contract can see, in rounds side by side, until each has a verdict."""
        waiting = [it for it in self.read(names) if not it.unseen]
        while waiting:
            rounds = in_rounds(waiting)
            with ThreadPoolExecutor(len(rounds)) as pool:
                waiting = [it for again in pool.map(self.judged, rounds) for it in again]

    def judged(self, batch):
        """Judges edits by one check, and gives those that have to be tried again without an answer that does not fit. Where it comes to
        no goal of some, since one of them has wrong types or hides another, each half of these is judged alone."""
        said, again, unread = self.checked(batch), [], []
        for it in batch:
            verdict, words = said.verdict(it)
            if verdict == OPEN and it.leave_out(said.unfitting(it)):
                again.append(it)
            elif verdict == OPEN and len(batch) > 1:
                unread.append(it)
            else:
                self.count(it, verdict, words, said.is_shown_false(it))
        halves = filter(None, (unread[::2], unread[1::2]))
        return [*again, *(it for half in halves for it in self.judged(half))]

    def checked(self, batch):
        """Checks a copy of the crate with the edits of the batch in it. It is one process: several load and prove much twice."""
        with tempfile.TemporaryDirectory(prefix="edits-") as copy:
            make_copy(copy, self.sources, {one for it in batch for one in it.functions}, [piece for it in batch for piece in it.pieces])
            for file in {file for it in batch for file, _ in it.left_out}:
                lines = [line for it in batch for at, line in it.left_out if at == file]
                Path(copy, "proofs", file).write_text(without(kit.text_of(f"{copy}/proofs/{file}"), lines), "utf-8")
            asked = [word for it in batch for path in it.paths for word in ("--only", path)]
            # Half of its attempts are enough for the search at named edits: more than its failure shows that their goals are false.
            half = ["--margin"] * all(it.name in self.named for it in batch)
            words = [f"{kit.kit()}/bin/rattle", "check", *kit.check_words(self.crate, self.libraries, "stand_in"), *asked, *half]
            with self.room:
                ran = subprocess.run(words, cwd=copy, stdin=subprocess.DEVNULL, stdout=subprocess.PIPE, stderr=subprocess.STDOUT, text=True, errors="replace", check=False)
        self.log.write(f"=== {self.crate}: {' '.join(it.name for it in batch)}\n{ran.stdout}\n")
        return Said(ran.stdout)

    def count(self, edit, verdict, words, is_shown_false):
        """Counts an edit. One that is named has to be shown false: by values that the prover finds, or by the test that it names."""
        is_well = verdict == (LET_THROUGH if edit.is_harmless() else REFUSED)
        words = f"{verdict}{' (false)' if is_shown_false else ''}: {words[:200]}"
        if is_well and edit.name in self.named and not (edit.is_harmless() or is_shown_false or edit.tests):
            is_well, words = False, f"is named, and nothing shows that a goal of it is false; {words}"
        self.tell(edit.name, is_well, words)

    def tell(self, name, is_well, words):
        self.results.append(is_well)
        print(f"{'ok' if is_well else 'FAILED'} {self.crate}/{name}: {words}\n", end="", flush=True)


def without(text, lines):
    """The text of answers without the paragraphs in which these lines stand; the others keep their places."""
    kept, at = [], 1
    for part in text.split("\n\n"):
        end = at + part.count("\n")
        kept.append("\n" * part.count("\n") if any(at <= it <= end for it in lines) else part)
        at = end + 2
    return "\n\n".join(kept)
