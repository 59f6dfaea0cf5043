"""Counts what a test tries, tells what did not come out as it must, and prints the last line of a test."""

import sys

# The most that is shown of a trial that failed.
SHOWN = 1_000


def end(what, passed, failed):
    """Prints the last line of a test, and ends it."""
    print(f"{what}: {passed} passed, {failed} failed")
    sys.exit(1 if failed or not passed else 0)


class Counts:
    """How many trials came out as they must, and how many did not."""

    def __init__(self):
        self.passed = self.failed = 0

    def add(self, what, is_right, told=""):
        """Counts a trial; one that failed is named, with what was seen."""
        self.passed, self.failed = self.passed + bool(is_right), self.failed + (not is_right)
        if not is_right:
            print(f"{what}: {told}"[:SHOWN], flush=True)

    def compare(self, what, found, wanted):
        """Counts a trial by what it comes to and what it must come to."""
        self.add(what, found == wanted, f"{str(found)[: SHOWN // 3]}, wanted {str(wanted)[: SHOWN // 3]}")

    def attempt(self, what, trial, *words):
        """Counts a trial by a function that says whether it came out as it must. One that ends in an error did not, and the test goes on."""
        try:
            self.add(what, trial(*words), "not as it must be")
        except Exception as error:
            self.add(what, False, repr(error))

    def end(self, what):
        end(what, self.passed, self.failed)
