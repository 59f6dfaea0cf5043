"""Traces and their audit: docs/profile/traces.md and audit in docs/profile/program.md. A trace is written as its lines."""
from machine import Machine, printed
from script_faults import has_statement, lines_of


class Line:
    """A line of a trace: its number, its unit, its statement as it was written, and what it says was answered."""

    def __init__(self, number, unit, statement, said):
        self.number, self.unit, self.statement, self.said = number, unit, statement, said

    def text(self):
        return f"{self.unit}: {self.statement} => {self.said}"


def trace_of(answers, scripts):
    """The trace of these printed answers, to the statements of the scripts with these texts."""
    statements = [iter([it for it in lines_of(text) if has_statement(it)]) for text in scripts]
    lines = []
    for number, answer in enumerate(answers, 1):
        _, unit, said = answer.split(" ", 2)
        lines.append(Line(number, int(unit), next(statements[int(unit) - 1]), said))
    return lines


def text_of(lines):
    return "".join(line.text() + "\n" for line in lines)


def machine_after(schema, capacity, units, lines, first=None):
    """The machine that has made the statements of the lines, each whole, in their order; the script with the text `first` before them."""
    scripts = ["".join(it.statement + "\n" for it in lines if it.unit == unit) for unit in range(1, units + 1)]
    load = [] if first is None else [it for it in lines_of(first) if has_statement(it)]
    machine = Machine(schema, capacity, scripts + ([] if first is None else [first]))
    list(machine.run_turns([units + 1] * len(load) + [it.unit for it in lines]))
    machine.lines = machine.lines[len(load):]
    return machine


def is_so(said, answer, statuses):
    """Whether the answer has all that is said; by statuses alone, where that is asked."""
    if statuses:
        return said[:4] == answer[:4]
    return answer == said or answer.startswith(said + " ")


def audited(schema, capacity, units, lines, statuses=False, first=None, every=False):
    """What `audit` prints of this trace, on standard output and on standard error; with `every` all that differs."""
    machine = machine_after(schema, capacity, units, lines, first)
    answers = [it.split(" ", 2)[2] for it in machine.lines]
    told = [
        f"trace differs line {line.number}: said {line.said}, is {answer}\n" for line, answer in zip(lines, answers) if not is_so(line.said, answer, statuses)
    ]
    if told:
        return "", "".join(told if every else told[:1])
    return printed(machine).partition("--\n")[2] + "AUDIT EQUAL\n", ""
