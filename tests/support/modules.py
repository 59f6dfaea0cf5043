"""Divides a module, as LLVM writes it as text, into parts that are compiled side by side, without what nothing reaches. A part has
functions that stand near one another in the order of calls. A function that only its own part names stays internal; one that another part
names is hidden, and if it is short that part has a copy, which can be inlined there. A constant whose address is never compared is in each
part that names it; any other static is in one."""

import re

NAME = re.compile(r'@("[^"]*"|[\w.$-]+)')
# A function is copied into the parts that name it if it has at most so many lines; so are those that a copy names, so many steps far.
SHORT, STEPS = 100, 3
OPEN, CLOSE = "([{<", ")]}>"


class Module:
    """The functions, statics and declarations of a module by their names, and the lines that each part has."""

    def __init__(self, text):
        *pieces, end = f"\n{text}".split("\n}\n")
        self.functions, self.statics, self.declared, self.used, others = {}, {}, {}, {}, []
        for it in pieces:
            lines, define, function = it.rpartition("\ndefine ")
            others += lines.splitlines(True)
            self.functions[NAME.search(function)[1]] = f"{define[1:]}{function}\n}}\n"
        others += end.splitlines(True)
        for it in others:
            if it.startswith(("@", "declare ")):
                (self.statics if it[0] == "@" else self.declared)[NAME.search(it)[1]] = it if it.endswith("\n") else f"{it}\n"
        self.lines = "".join(it for it in others if not it.startswith(("@", "declare ", ";")))

    def uses(self, name):
        """What a function or a static names, in the order of its text."""
        if name not in self.used:
            text = self.functions.get(name) or self.statics[name]
            self.used[name] = [it for it in dict.fromkeys(NAME.findall(text)) if it in self.functions or it in self.statics or it in self.declared]
        return self.used[name]

    def reached(self):
        """The functions and statics that are reached from those which the module shows, each behind the first that names it."""
        order, waiting = {}, [name for name, it in self.functions.items() if not it.startswith("define internal ")]
        while waiting:
            it = waiting.pop()
            if it not in order and it not in self.declared:
                order[it] = None
                waiting += reversed(self.uses(it))
        return list(order)

    def owners(self, count):
        """The part of each function and of each static that is not copied, by sizes that are nearly the same."""
        names = [it for it in self.reached() if it in self.functions or not is_copied(self.statics[it])]
        sizes = [len(self.functions.get(it, "")) for it in names]
        owners, before, whole = {}, 0, sum(sizes)
        for it, size in zip(names, sizes):
            owners[it] = before * count // (whole + 1)
            before += size
        return owners

    def parts(self, count):
        """The texts of the parts."""
        owners = self.owners(count)
        members = [[it for it, owner in owners.items() if owner == part] for part in range(count)]
        copied = [self.short_uses(part, members[part], owners) for part in range(count)]
        named = [dict.fromkeys(use for it in members[part] + copied[part] for use in self.uses(it)) for part in range(count)]
        for each in named:
            waiting = [it for it in each if it in self.statics and it not in owners]
            while waiting:
                new = [use for use in self.uses(waiting.pop()) if use not in each]
                each.update(dict.fromkeys(new))
                waiting += [it for it in new if it in self.statics and it not in owners]
        shared = {it for part, each in enumerate(named) for it in each if owners.get(it, part) != part}
        return [self.text_of(members[part], copied[part], named[part], shared) for part in range(count)]

    def short_uses(self, part, members, owners):
        """The short functions of other parts that functions of this one name, or that their copies name."""
        copied, new = {}, members
        for _ in range(STEPS):
            uses = dict.fromkeys(use for it in new for use in self.uses(it) if use in self.functions and owners[use] != part and use not in copied)
            new = [it for it in uses if self.functions[it].count("\n") <= SHORT]
            copied.update(dict.fromkeys(new))
        return list(copied)

    def text_of(self, members, copied, named, shared):
        """The text of a part."""
        own = {*members, *copied}
        text = [self.lines]
        for it in named:
            if it in self.declared:
                text.append(self.declared[it])
            elif it not in own:
                text.append(self.declaration(it))
        for it in members:
            text.append(hidden(self.functions.get(it) or self.statics[it]) if it in shared else self.functions.get(it) or self.statics[it])
        text += [self.functions[it].replace("define internal ", "define available_externally hidden ", 1) for it in copied]
        return "".join(text)

    def declaration(self, name):
        """How a part names what another one has, or its copy of a constant."""
        if name in self.functions:
            return self.functions[name].partition("\n")[0].replace("define internal ", "declare hidden ", 1).rpartition(" {")[0] + "\n"
        line = self.statics[name]
        return line if is_copied(line) else external(line)


def is_copied(line):
    """Whether each part may have a static for itself: its address is never compared, and nothing writes to it."""
    return " unnamed_addr constant " in line.partition("[")[0]


def hidden(text):
    """A function or a static that other parts name."""
    return re.sub(r"^(define internal|@\S+ = private) ", lambda it: it[1].replace("internal", "hidden").replace("private", "hidden") + " ", text, count=1)


def external(line):
    """The declaration of a static: its line without its value."""
    head, kind, rest = re.match(r"(@\S+ = )private ((?:unnamed_addr )?(?:global|constant) )(.*)", line).groups()
    depth = 0
    for at, it in enumerate(rest):
        depth += (it in OPEN) - (it in CLOSE)
        if it == " " and depth == 0:
            break
    align = re.search(r", align \d+$", rest)
    return f"{head}external hidden {kind}{rest[:at]}{align[0] if align else ''}\n"
