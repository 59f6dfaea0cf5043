"""The manual pages of the program and of its commands, made from their help."""
import re


def escaped(text):
    """A text as troff prints it: backslashes and hyphens as they are, and no line that begins as a request."""
    text = text.replace("\\", "\\e").replace("-", "\\-")
    return re.sub(r"(?m)^([.'])", r"\\&\1", text)


def section(heading, *lines):
    return [f".SH {heading}", *lines]


def listed(entries):
    """A list: what is typed in bold, and what it means further in."""
    return [line for it in entries for line in (".TP", f".B {escaped(it.words)}", escaped(it.means) or "\\&")]


def page(it, source, others, profile):
    """The page of a command, or of the program; its source is the day and the version."""
    lines = [f'.TH {it.name.upper()} 1 "{source[0]}" "{escaped(source[1])}" "Fonnavil"', ".ad l"]
    lines += section("NAME", f"{escaped(it.name)} \\- {escaped(it.about)}")
    lines += section("SYNOPSIS", ".B dbtg", escaped(it.usage))
    for heading, entries in it.lists.items():
        lines += section(heading.upper(), *listed(entries))
    lines += section("NOTES", ".nf", escaped(it.example), ".fi") if it.example else []
    lines += section("FILES", escaped(profile), ".br", "The profile, which says what each command prints")
    lines += section("SEE ALSO", *(f".BR {escaped(name)} (1){',' if name != others[-1] else ''}" for name in others))
    return "\n".join(lines) + "\n"


def pages(whole, commands, source, profile):
    """Each page with its file's name."""
    every = [whole, *commands]
    for it in every:
        yield f"{it.name}.1", page(it, source, [other.name for other in every if other is not it], profile)
