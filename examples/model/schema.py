"""What a schema without faults says: docs/profile/schema-language.md."""
import re


class Type:
    def __init__(self, name):
        self.name, self.area, self.calc, self.unique, self.items, self.pictures = name, None, [], False, [], {}


class Set:
    def __init__(self, name, order, owner):
        self.name, self.order, self.owner, self.members = name, order, owner, {}


class Schema:
    def __init__(self, text):
        words = [w for w in re.findall(r"\.|[^\s,;.]+", text) if w not in ("IS", "ARE")]
        sentences, at = [], []
        for word in words:
            if word == ".":
                sentences.append(at)
                at = []
            else:
                at.append(word)
        self.name, self.areas, self.types, self.sets = sentences[0][2], [], [], []
        for it in sentences[1:]:
            {"AREA": self.area, "RECORD": self.record, "02": self.item, "SET": self.set, "MEMBER": self.member}[it[0]](it)
        self.type = {t.name: i for i, t in enumerate(self.types)}
        self.number = {s.name: i for i, s in enumerate(self.sets)}

    def area(self, it):
        self.areas.append(it[2])

    def record(self, it):
        made = Type(it[2])
        made.area = self.areas.index(it[it.index("WITHIN") + 1])
        if "CALC" in it:
            end = it.index("DUPLICATES")
            made.calc, made.unique = it[it.index("USING") + 1:end], it[end + 1] == "NOT"
        self.types.append(made)

    def item(self, it):
        made, picture = self.types[-1], it[3]
        size = int(re.sub(r"\D", "", picture[1:])) if "(" in picture else len(picture)
        made.items.append(it[1])
        made.pictures[it[1]] = (picture[0], size)

    def set(self, it):
        owner = it[it.index("OWNER") + 1]
        names = [t.name for t in self.types]
        self.sets.append(Set(it[2], it[4:it.index("OWNER")], None if owner == "SYSTEM" else names.index(owner)))

    def member(self, it):
        key = it[it.index("KEY") + 1] if "KEY" in it else None
        self.sets[-1].members[[t.name for t in self.types].index(it[1])] = (it[2], it[3], key)

    def home(self, s):
        owner = self.sets[s].owner
        return self.types[next(iter(self.sets[s].members)) if owner is None else owner].area

    def sorted(self, s):
        return self.sets[s].order[0] == "SORTED"

    def of_member(self, t):
        return [i for i, s in enumerate(self.sets) if t in s.members]

    def of_owner(self, t):
        return [i for i, s in enumerate(self.sets) if s.owner == t]
