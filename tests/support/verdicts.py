"""What a check says of each function, read for one purpose: whether a goal of the function that an edit changes is refused."""

import re

REFUSED = "refused"
LET_THROUGH = "let through: what it edits is still proved"
OPEN = "the check did not come to a goal of it"

LINE = re.compile(r"(?m)^fn (\S+): (.*)$")
# What a function's line says of goals at which the search failed.
FAILED = re.compile(r"`search` did not prove (`.*)")
FALSE = re.compile(r"(?m)^note: src/.*the facts known there allow values at which this goal is false")
ERROR = re.compile(r"(?m)^(?:\./)?proofs/(\S+/\w+\.antt):(\d+):\d+: error: (.*)$")
# The last line of a check that came to its end, and the first of one in which the front end refused the text.
WHOLE = re.compile(r"(?m)^only=\d+ proved=\d+")
BROKEN = re.compile(r"(?m)^(?:src/\S+: )?error.*$")


class Said:
    """What a check says: the line of each function, those at which values were found that make a goal false, the errors in proofs by
    hand, each with its file and line, and why the check did not come to its end, if it did not."""

    def __init__(self, text):
        # A function's notes stand in front of its line.
        notes, names, words = (LINE.split(text)[at::3] for at in range(3))
        self.lines, self.false = dict(zip(names, words)), {name for name, it in zip(names, notes) if FALSE.search(it)}
        self.errors = [(file, int(line), error) for file, line, error in ERROR.findall(text)]
        self.broken = None if WHOLE.search(text) else (BROKEN.search(text) or ["the check did not come to its end"])[0]

    def names(self, edit):
        """The functions that have to be refused, with their closures, of which the check has a line."""
        return [it for it in self.lines if it in edit.paths or it.startswith(edit.closures)]

    def is_shown_false(self, edit):
        """Whether values were found at which a goal of the edit is false."""
        return any(it in self.false for it in self.names(edit))

    def unfitting(self, edit):
        """The errors in proofs by hand of the edited functions."""
        return [it for it in self.errors if it[0].startswith(edit.proofs)]

    def verdict(self, edit):
        """What the lines say of an edit, and the words that say it. It is open where an answer by hand does not fit, or the function is
        not proved for another reason than a goal of its own."""
        names = self.names(edit)
        unproved = {it: self.lines[it] for it in names if not self.lines[it].startswith("proved")}
        failed = [f"{it}: {found[0]}" for it, words in unproved.items() if (found := FAILED.search(words))]
        if self.broken:
            return OPEN, self.broken
        if failed:
            return REFUSED, failed[0]
        if unproved or not names or self.unfitting(edit):
            told = ["{}:{}: {}".format(*it) for it in self.unfitting(edit)] + [": ".join(it) for it in unproved.items()]
            return OPEN, [*told, "the check has no line of it"][0]
        return LET_THROUGH, f"{names[0]}: {self.lines[names[0]]}"
