"""Runs tests to their ends, and counts: what each printed, what passed and failed by its last line, and the processor time that it took."""

import os
import re
import subprocess
from concurrent.futures import ThreadPoolExecutor
from dataclasses import dataclass

import kit


@dataclass(frozen=True)
class Ran:
    """How a command ended."""

    name: str
    text: str
    seconds: float
    status: int
    least: int = 1

    def counts(self):
        """What a last line `.. N passed, M failed` counts; without one, with too few or another exit status than 0 something has failed."""
        found = re.search(r"(\d+) passed, (\d+) failed\s*\Z", self.text)
        passed, failed = (int(found[1]), int(found[2])) if found else (0, 1)
        return passed, failed or int(self.status != 0 or passed < self.least)


def ran(words, nice=0, name=None, hear=lambda line: None, least=1):
    """Runs a command at the top of the repository, and has each line heard that it prints; it passes if it counts so much at least."""
    words, text = ["nice", "-n", str(nice), *words], ""
    with subprocess.Popen(words, cwd=kit.ROOT, stdin=subprocess.DEVNULL, stdout=subprocess.PIPE, stderr=subprocess.STDOUT, text=True, errors="replace") as process:
        for line in process.stdout:
            hear(line)
            text += line
        _, status, used = os.wait4(process.pid, 0)
        process.returncode = os.waitstatus_to_exitcode(status)
    return Ran(name or words[3], text, used.ru_utime + used.ru_stime, process.returncode, least)


def run_tests(program=None, nice=0):
    """Runs the tests of tests/tests.list that are run with the program, one on each processor; without its path the others, one by one."""
    lines = [line.split() for line in kit.text_of(f"{kit.ROOT}/tests/tests.list").splitlines() if line and not line.startswith("#")]
    tests = [[program if it == "PROGRAM" else it for it in words] for words in lines if ("PROGRAM" in words) == bool(program)]
    with ThreadPoolExecutor(len(os.sched_getaffinity(0)) if program else 1) as pool:
        return list(pool.map(lambda it: ran(it[1:], nice, next(word for word in it[1:] if word != "tests/tools/watched"), least=int(it[0])), tests))


def sum_up(done, *lines):
    """Prints where the processor minutes went, these lines, and what passed and what failed, all together; gives the exit status."""
    print("processor minutes", *(f"{it.name:<34}{it.seconds / 60:>6.1f}{'   FAILED' if it.counts()[1] else ''}" for it in done), sep="\n")
    passed, failed = (sum(counts) for counts in zip(*(it.counts() for it in done)))
    print(f"{'together':<34}{sum(it.seconds for it in done) / 60:>6.1f}", *lines, f"{passed} passed, {failed} failed", sep="\n")
    return 1 if failed else 0
