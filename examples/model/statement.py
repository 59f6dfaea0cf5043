"""The statements: docs/profile/statements.md, currency.md, keeping.md, deletion.md, and the events of one in events.md."""
from database import SYSTEM, Record, conflict


class Refused(Exception):
    """A check that applies, with the two digits of its cause."""


def check(applies, cause):
    if applies:
        raise Refused(cause)


class Statement:
    """One statement of a unit: its words, and the pages of docs/profile/statements.md as methods."""

    def __init__(self, machine, unit, words):
        self.m, self.db, self.schema, self.u = machine, machine.db, machine.schema, unit
        self.kind, self.suppressed = words[0], []
        if "SUPPRESS" in words:
            at = words.index("SUPPRESS")
            self.suppressed, words = words[at + 1:], words[:at]
        self.w = words
        self.need_update = self.kind in ("STORE", "INSERT", "REMOVE", "MODIFY", "DELETE")
        self.found = None
        name = self.form()
        self.pre = getattr(self, "pre_" + name)
        self.take = getattr(self, "cells_" + name)
        self.do = getattr(self, "do_" + name)

    def form(self):
        w = self.w
        if self.kind != "FIND":
            return self.kind.lower()
        if w[1] in ("KEY", "CALC", "SORTED", "OWNER", "CURRENT"):
            return "find_" + w[1].lower()
        if w[1:3] == ["NEXT", "DUPLICATE"]:
            return "find_duplicate"
        return "find_set" if w[-1] == "SET" else "find_area"

    # words

    def values(self, t, words):
        made = {}
        for item, _, value in zip(words[::3], words[1::3], words[2::3]):
            made[item] = self.value(t, item, value)
        return made

    def value(self, t, item, word):
        kind, size = self.schema.types[t].pictures[item]
        return int(word) if kind == "9" else word[1:-1].ljust(size)

    # shared checks

    def run_type(self):
        check(self.u.run is None, "13")
        return self.u.run[0]

    def place_in(self, s):
        if self.schema.sets[s].owner is None and self.u.places[s] is None:
            return (SYSTEM, None)
        check(self.u.places[s] is None, "06")
        return self.u.places[s]

    def own_checks(self, kept=True):
        check(self.u.run not in self.db.records, "17")
        check(kept and self.u.run in self.u.kept and self.u.kept[self.u.run] != self.db.records[self.u.run].version, "03")

    def place_checks(self, s, key, value, owner, position):
        check((s, owner) not in self.db.lists, "17")
        members, order = self.db.lists[s, owner], self.schema.sets[s].order
        check(order[0] in ("NEXT", "PRIOR") and position is not None and position not in members, "23")
        if order[0] == "SORTED" and order[3] == "NOT":
            check(any(self.db.sort_key(s, m) == value for m in members if m != key), "05")

    def changed(self, key):
        self.db.records[key].version += 1
        if key in self.u.kept:
            self.u.kept[key] = self.db.records[key].version

    def see(self, key):
        """docs/profile/currency.md"""
        u, t, sup = self.u, key[0], self.suppressed
        u.run = key
        if "RECORD" not in sup and "ALL" not in sup:
            u.records[t] = key
        if "AREA" not in sup and "ALL" not in sup:
            u.areas[self.schema.types[t].area] = key
        owners = self.db.records[key].owners
        for s, it in enumerate(self.schema.sets):
            if it.name in sup or "ALL" in sup:
                continue
            if it.owner == t:
                u.places[s] = (key, None)
            elif s in owners:
                u.places[s] = (owners[s], key)
        u.guesses = dict(owners)

    def see_found(self):
        self.see(self.found)
        return (self.found, False)

    # each method pre_X gives the areas and makes the checks that need no cell before 06 and with it; cells_X yields cells;
    # do_X makes the checks on cells and the change, and gives (key, with items)

    def pre_open(self):
        a = self.schema.areas.index(self.w[2])
        check(a in self.u.modes, "28")
        self.mode = "-".join(x for x in self.w[3:] if x not in ("USAGE-MODE", "IS"))
        return {a}

    def cells_open(self):
        yield ("usage", self.schema.areas.index(self.w[2]))

    def do_open(self):
        a = self.schema.areas.index(self.w[2])
        check(any(conflict(self.mode, mode) for _, mode in self.db.usage[a]), "29")
        self.db.usage[a].append((self.u.number, self.mode))
        self.u.modes[a] = self.mode

    def pre_close(self):
        return {self.schema.areas.index(self.w[2])}

    cells_close = cells_open

    def do_close(self):
        a = self.schema.areas.index(self.w[2])
        self.db.usage[a] = [it for it in self.db.usage[a] if it[0] != self.u.number]
        del self.u.modes[a]

    def pre_find_key(self):
        name, number = self.w[2].split(":")
        n, _, g = number.partition(".")
        self.found = (self.schema.type[name], int(n), int(g or 1))
        return {self.schema.types[self.found[0]].area}

    def cells_found(self):
        yield ("slot", self.found[:2])

    cells_find_key = cells_found

    def do_find_key(self):
        check(self.found not in self.db.records, "26")
        return self.see_found()

    def pre_find_current(self):
        w = self.w
        if w[3] == "RUN-UNIT":
            self.run_type()
            self.found = self.u.run
        elif w[4] == "RECORD":
            self.found = self.u.records[self.schema.type[w[3]]]
        elif w[4] == "AREA":
            self.found = self.u.areas[self.schema.areas.index(w[3])]
        else:
            place = self.u.places[self.schema.number[w[3]]]
            self.found = place and (place[1] or place[0])
        check(self.found is None, "06")
        return {self.schema.types[self.found[0]].area}

    cells_find_current = cells_found

    def do_find_current(self):
        check(self.found not in self.db.records, "17")
        return self.see_found()

    def pre_find_owner(self):
        s = self.schema.number[self.w[3]]
        self.found = self.place_in(s)[0]
        return {self.schema.home(s)}

    cells_find_owner, do_find_owner = cells_found, do_find_current

    def pick(self, keys, position):
        """FIRST, LAST, NEXT, PRIOR, n, -n; the position is looked up by the caller for sets, by order for areas."""
        word = self.w[1]
        if word in ("FIRST", "LAST"):
            word = "1" if word == "FIRST" else "-1"
        n = int(word)
        keys = keys if n > 0 else keys[::-1]
        return keys[abs(n) - 1] if abs(n) <= len(keys) else None

    def pre_find_set(self):
        s = self.schema.number[self.w[-2]]
        self.s, (self.owner, self.position) = s, self.place_in(s)
        self.wanted = [self.schema.type[self.w[2]]] if self.w[3] == "RECORD" else list(self.schema.sets[s].members)
        return {self.schema.home(s)} | {self.schema.types[t].area for t in self.wanted}

    def find_in_set(self):
        check((self.s, self.owner) not in self.db.lists, "17")
        members = self.db.lists[self.s, self.owner]
        if self.w[1] in ("NEXT", "PRIOR"):
            lost = self.position is not None and self.position not in members
            check(lost, "23")
            at = None if self.position is None else members.index(self.position)
            if self.w[1] == "NEXT":
                rest = members if at is None else members[at + 1:]
            else:
                rest = members[::-1] if at is None else members[:at][::-1]
            found = next((m for m in rest if m[0] in self.wanted), None)
        else:
            found = self.pick([m for m in members if m[0] in self.wanted], None)
        check(found is None, "07")
        return found

    def try_find(self, find):
        try:
            self.found = find()
        except Refused as cause:
            self.found, self.cause = None, cause
        return self.found

    def do_find(self):
        if self.found is None:
            raise self.cause
        return self.see_found()

    def cells_find_set(self):
        yield ("ring", self.s, self.owner[:2])
        if self.try_find(self.find_in_set):
            yield ("slot", self.found[:2])

    do_find_set = do_find

    def pre_find_area(self):
        a = self.schema.areas.index(self.w[-2])
        if self.w[1] in ("NEXT", "PRIOR"):
            check(self.u.areas[a] is None, "06")
        every = [t for t, it in enumerate(self.schema.types) if it.area == a]
        self.a, self.wanted = a, [self.schema.type[self.w[2]]] if self.w[3] == "RECORD" else every
        return {a}

    def find_in_area(self):
        keys, at = [k for t in self.wanted for k in self.db.live(t)], self.u.areas[self.a]
        if self.w[1] == "NEXT":
            found = next((k for k in keys if k > at), None)
        elif self.w[1] == "PRIOR":
            found = next((k for k in keys[::-1] if k < at), None)
        else:
            found = self.pick(keys, None)
        check(found is None, "07")
        return found

    def cells_find_area(self):
        for t in self.wanted:
            yield ("extent", t)
        if self.try_find(self.find_in_area):
            yield ("slot", self.found[:2])

    do_find_area = do_find

    def pre_find_calc(self):
        self.t = self.schema.type[self.w[2]]
        self.items = self.values(self.t, self.w[5:])
        return {self.schema.types[self.t].area}

    def find_calc(self):
        keys = self.db.by_calc[self.t].get(self.db.calc_of(self.t, self.items))
        check(not keys, "26")
        return min(keys)

    def cells_find_calc(self):
        yield ("extent", self.t)
        if self.try_find(self.find_calc):
            yield ("slot", self.found[:2])

    do_find_calc = do_find

    def pre_find_duplicate(self):
        self.t = self.schema.type[self.w[4]]
        check(self.u.records[self.t] is None, "06")
        return {self.schema.types[self.t].area}

    def find_duplicate(self):
        current = self.u.records[self.t]
        check(current not in self.db.records, "17")
        keys = self.db.by_calc[self.t][self.db.calc_of(self.t, self.db.records[current].items)]
        found = min((k for k in keys if k > current), default=None)
        check(found is None, "07")
        return found

    def cells_find_duplicate(self):
        yield ("extent", self.t)
        if self.try_find(self.find_duplicate):
            yield ("slot", self.found[:2])

    do_find_duplicate = do_find

    def pre_find_sorted(self):
        self.s = self.schema.number[self.w[4]]
        self.owner, _ = self.place_in(self.s)
        return {self.schema.home(self.s)} | {self.schema.types[t].area for t in self.schema.sets[self.s].members}

    def find_sorted(self):
        check((self.s, self.owner) not in self.db.lists, "17")
        t, (_, _, item) = next(iter(self.schema.sets[self.s].members.items()))
        value = self.value(t, item, self.w[2])
        found = next((m for m in self.db.lists[self.s, self.owner] if self.db.sort_key(self.s, m) == value), None)
        check(found is None, "26")
        return found

    def cells_find_sorted(self):
        yield ("ring", self.s, self.owner[:2])
        if self.try_find(self.find_sorted):
            yield ("slot", self.found[:2])

    do_find_sorted = do_find

    def pre_get(self):
        t = self.run_type()
        check(len(self.w) > 1 and self.schema.type[self.w[1]] != t, "20")
        return {self.schema.types[t].area}

    def cells_get(self):
        yield ("slot", self.u.run[:2])

    def do_get(self):
        self.own_checks(kept=False)
        return (self.u.run, True)

    def pre_store(self):
        self.t = self.schema.type[self.w[1]]
        self.automatic = [s for s in self.schema.of_member(self.t) if self.schema.sets[s].members[self.t][1] == "AUTOMATIC"]
        self.into = {s: self.place_in(s) for s in self.automatic}
        it = self.schema.types[self.t]
        self.items = {i: 0 if it.pictures[i][0] == "9" else " " * it.pictures[i][1] for i in it.items}
        self.items.update(self.values(self.t, self.w[2:]))
        return {it.area} | {self.schema.home(s) for s in self.automatic}

    def store_extent_checks(self):
        check(self.db.free_number(self.t) == 0, "11")
        if self.schema.types[self.t].unique:
            check(self.db.by_calc[self.t].get(self.db.calc_of(self.t, self.items)), "05")

    def cells_store(self):
        yield ("extent", self.t)
        try:
            self.store_extent_checks()
        except Refused:
            return
        n = self.db.free_number(self.t)
        rings = {s: owner for s, (owner, _) in self.into.items()} | {s: (self.t, n) for s in self.schema.of_owner(self.t)}
        for s in sorted(rings):
            yield ("ring", s, rings[s][:2])
        yield ("slot", (self.t, n))

    def do_store(self):
        self.store_extent_checks()
        n = self.db.free_number(self.t)
        key = (self.t, n, self.db.generations[self.t][n] + 1)
        for s, (owner, position) in self.into.items():
            item = self.schema.sets[s].members[self.t][2]
            self.place_checks(s, key, self.items.get(item), owner, position)
        self.db.add(key, Record(self.items))
        for s, (owner, position) in self.into.items():
            self.db.place(s, owner, key, position)
        self.see(key)
        return (key, False)

    def set_class(self, s, t):
        check(t not in self.schema.sets[s].members, "20")
        return self.schema.sets[s].members[t]

    def pre_insert(self):
        t, self.s = self.run_type(), self.schema.number[self.w[2]]
        check(self.set_class(self.s, t)[:2] == ("MANDATORY", "AUTOMATIC"), "14")
        self.owner, self.position = self.place_in(self.s)
        return {self.schema.types[t].area, self.schema.home(self.s)}

    def cells_insert(self):
        yield ("ring", self.s, self.owner[:2])
        yield ("slot", self.u.run[:2])

    def do_insert(self):
        self.own_checks()
        key = self.u.run
        check(self.s in self.db.records[key].owners, "16")
        item = self.schema.sets[self.s].members[key[0]][2]
        self.place_checks(self.s, key, self.db.records[key].items.get(item), self.owner, self.position)
        self.db.place(self.s, self.owner, key, self.position)
        self.changed(key)
        self.u.places[self.s] = (self.owner, key)
        self.u.guesses[self.s] = self.owner

    def pre_remove(self):
        t, self.s = self.run_type(), self.schema.number[self.w[2]]
        check(self.set_class(self.s, t)[0] == "MANDATORY", "15")
        self.needed = [self.s]
        return {self.schema.types[t].area, self.schema.home(self.s)}

    def cells_remove(self):
        for s in self.needed:
            if s in self.u.guesses:
                yield ("ring", s, self.u.guesses[s][:2])
        yield ("slot", self.u.run[:2])

    def stale(self):
        """The owners that the slot names against the guesses, in the sets that are needed."""
        if self.kind not in ("REMOVE", "MODIFY") or self.u.run not in self.db.records:
            return {}
        owners = self.db.records[self.u.run].owners
        return {s: owners[s] for s in self.needed if s in owners and owners[s] != self.u.guesses.get(s)}

    def do_remove(self):
        self.own_checks()
        key = self.u.run
        owners = self.db.records[key].owners
        check(self.s not in owners, "22")
        self.db.lists[self.s, owners.pop(self.s)].remove(key)
        self.changed(key)
        self.u.guesses.pop(self.s, None)

    def pre_modify(self):
        t = self.run_type()
        check(t != self.schema.type[self.w[1]], "20")
        self.t, self.items = t, self.values(t, self.w[2:])
        self.needed = [s for s in self.schema.of_member(t) if self.schema.sorted(s) and self.schema.sets[s].members[t][2] in self.items]
        return {self.schema.types[t].area} | {self.schema.home(s) for s in self.needed}

    def names_calc(self):
        return any(i in self.items for i in self.schema.types[self.t].calc)

    def cells_modify(self):
        if self.names_calc():
            yield ("extent", self.t)
        yield from self.cells_remove()

    def do_modify(self):
        self.own_checks()
        key = self.u.run
        record = self.db.records[key]
        items = record.items | self.items
        old, new = self.db.calc_of(self.t, record.items), self.db.calc_of(self.t, items)
        if self.names_calc() and self.schema.types[self.t].unique:
            check(self.db.by_calc[self.t].get(new, set()) - {key}, "05")
        moved = [s for s in self.needed if s in record.owners]
        for s in moved:
            value = items[self.schema.sets[s].members[self.t][2]]
            self.place_checks(s, key, value, record.owners[s], None)
        self.db.by_calc[self.t][old].discard(key)
        self.db.by_calc[self.t].setdefault(new, set()).add(key)
        record.items = items
        for s in moved:
            self.db.lists[s, record.owners[s]].remove(key)
            self.db.place(s, record.owners[s], key, None)
        self.changed(key)

    def pre_delete(self):
        reached, new = set(), {self.run_type()}
        while new:
            reached |= new
            new = {m for s in self.schema.sets if s.owner in reached for m in s.members} - reached
        homes = {self.schema.home(s) for t in reached for s in self.schema.of_member(t)}
        return {self.schema.types[t].area for t in reached} | homes

    def members_of(self, key):
        return [(s, m) for s in self.schema.of_owner(key[0]) for m in self.db.lists[s, key]]

    def takes(self, s, member):
        if self.w[1:] == ["ALL"] or self.schema.sets[s].members[member[0]][0] == "MANDATORY":
            return self.w[1:] != []
        return self.w[1:] == ["SELECTIVE"] and len(self.db.records[member].owners) == 1

    def going(self):
        """docs/profile/deletion.md, in the order in which the records are met."""
        goes, at = [self.u.run], 0
        while at < len(goes):
            for s, member in self.members_of(goes[at]):
                if self.takes(s, member) and member not in goes:
                    goes.append(member)
            at += 1
        return goes

    def cells_delete(self):
        run = self.u.run
        yield ("slot", run[:2])
        try:
            self.own_checks()
        except Refused:
            return
        if self.w[1:] == []:
            for s in self.schema.of_owner(run[0]):
                yield ("ring", s, run[:2])
                if self.db.lists[s, run]:
                    return
        goes = self.going()
        for key in goes:
            yield ("slot", key[:2])
            for s in self.schema.of_owner(key[0]):
                yield ("ring", s, key[:2])
            for _, member in self.members_of(key):
                yield ("slot", member[:2])
        for t in sorted({key[0] for key in goes}):
            yield ("extent", t)
        for key in goes:
            for s, owner in self.db.records[key].owners.items():
                yield ("ring", s, owner[:2])

    def do_delete(self):
        self.own_checks()
        check(self.w[1:] == [] and self.members_of(self.u.run), "30")
        goes = self.going()
        stays = {m for key in goes for _, m in self.members_of(key)} - set(goes)
        for member in stays:
            owners = self.db.records[member].owners
            for s in [s for s, owner in owners.items() if owner in goes]:
                self.db.lists[s, owners.pop(s)].remove(member)
            self.changed(member)
        for key in goes:
            self.db.drop(key)
        self.u.kept.pop(self.u.run, None)
        self.u.run = None

    def pre_keep(self):
        return {self.schema.types[self.run_type()].area}

    cells_keep = cells_get

    def do_keep(self):
        self.own_checks(kept=False)
        self.u.kept[self.u.run] = self.db.records[self.u.run].version

    def pre_free(self):
        if self.w[1:] == []:
            self.run_type()
            check(self.u.run not in self.u.kept, "31")
        return set()

    def cells_free(self):
        return iter(())

    def do_free(self):
        if self.w[1:] == []:
            del self.u.kept[self.u.run]
        else:
            self.u.kept.clear()

    # docs/profile/events.md

    def areas(self):
        areas = self.pre()
        if self.kind not in ("OPEN", "FREE"):
            check(any(a not in self.u.modes for a in areas), "01")
        if self.need_update:
            check(any("UPDATE" not in self.u.modes[a] for a in areas), "09")
        check(self.kind == "FIND" and self.w[1] == "KEY" and self.found[1] > self.db.capacity, "26")
        return sorted(areas)

    def events(self):
        """Each event: what it takes, or None; the machine makes it when what it takes is free."""
        yield None  # begin
        try:
            areas = self.areas()
        except Refused as cause:
            yield None  # ticket
            self.m.answer(self, str(cause))
            return
        for a in areas:
            yield ("area", a, self.kind == "DELETE")
        yield from self.cells_with_turns()
        yield None  # ticket
        try:
            self.m.answer(self, "", self.do())
        except Refused as cause:
            self.m.answer(self, str(cause))
        for _ in self.u.cells:
            yield None  # link
        yield from self.put_back()
        while self.u.held_areas:
            yield None
            self.u.held_areas.pop()

    def put_back(self):
        while self.u.cells:
            yield None
            self.u.cells.pop()

    def cells_with_turns(self):
        while True:
            for cell in self.take():
                if cell not in self.u.cells:
                    yield cell
            stale = self.stale()
            if not stale:
                return
            yield None  # notes the true owners
            self.u.guesses.update(stale)
            yield from self.put_back()
