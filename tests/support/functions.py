"""The functions of a source file, by the layout that `rt fmt` gives it: where each begins, where its body is, and what a check calls it. A
function is at the margin, or one step in if an impl block or a trait is around it."""

import re
from dataclasses import dataclass

HEAD = re.compile(r'(    |)(?:(?:pub(?:\(\w+\))?|const|unsafe|extern "C") )*fn (\w+)')
BLOCK = re.compile(r"(?:pub(?:\(\w+\))? |unsafe )*(?:impl|trait)\b(?:<.*?>(?= \w))?\s*(?:([\w:]+)(<.*>)? for \W*)?([\w:]+)")


@dataclass(frozen=True)
class Function:
    """A function with a body: its module, its name, the type and the trait of the impl block in which it stands, if any. `start`, `opens`
    and `end` are places in the text of its file."""

    module: str
    owner: str
    trait: str
    name: str
    start: int
    opens: int
    end: int

    def shown(self):
        return f"{self.owner}::{self.name}" if self.owner else self.name

    def names(self, declared):
        """The name that a check gives it, without that of the crate, and what the names of its closures begin with. A method bears the
        module that declares its type, which may be another; one of a trait bears that of its impl block, and the trait's name."""
        module = self.module if self.trait else declared.get(self.owner, self.module)
        parts = [module, self.owner + self.trait, self.name], [self.module, "fn", self.owner, self.name]
        return tuple("::".join(filter(None, it)) for it in parts)


def module_of(file):
    """The module that a file of src/ is, as a path below its crate."""
    return re.sub(r"(^|::)(lib|main|mod)$", "", re.sub(r"(^src/|\.rt$)", "", file).replace("/", "::"))


def functions_of(text, file):
    """The functions in the text of a file, in their order."""
    found, block, at, past = [], ("", ""), 0, 0
    for line in text.splitlines(keepends=True):
        head, opens = HEAD.match(line), BLOCK.match(line)
        if at >= past and opens:
            owner, trait = (path.split("::")[-1] for path in (opens[3], opens[1] or ""))
            arguments = re.sub(r"<.*>", "", (opens[2] or "<>")[1:-1])
            block = owner, trait + "".join(re.findall(r"[A-Za-z_]\w*", arguments))
        elif at >= past and line == "}\n":
            block = "", ""
        elif at >= past and head and (not head[1] or block[0]):
            body = body_of(text, at, head[1])
            if body:
                found.append(Function(module_of(file), *(block if head[1] else ("", "")), head[2], at, *body))
                past = body[1]
        at += len(line)
    return found


def body_of(text, at, margin):
    """The places of the body's braces of the function whose first line begins at a place, if it has one: the body opens at the end of
    the first line that stands no farther in than the function, and closes at the first such brace."""
    head = re.compile(rf"(?m)(?:^{margin}(?! ).*?(\{{\}}?)|;)$").search(text, at)
    if head[1] != "{":
        return (head.start(1), head.end(1)) if head[1] else None
    return head.start(1), text.index(f"\n{margin}}}\n", head.end()) + len(margin) + 2
