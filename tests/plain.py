"""A plain program of the rules that kept reviews hang on: sets and lists, and nothing kept that can be found anew.

It is told which commands the machine accepted, and tells what each kept review must answer and what must have changed it
last. Rights are 1 for reading and 2 for writing.
"""
RIGHTS = {"read": 1, "write": 2}
OPENING = {"pm": (0, "pc"), "pm_admins": (1, "ua"), "root": (2, "user")}


class Plain:
    def __init__(self):
        self.elements = dict(OPENING)
        self.assigned = {("pm_admins", "pm"), ("root", "pm_admins")}
        self.associated = {}
        self.prohibited = {}
        self.obliged = {}
        self.kept = {}
        self.version = 0

    # ---- what the policy comes to

    def above(self, name):
        """What contains the element, itself too."""
        found, ways = {name}, [name]
        while ways:
            below = ways.pop()
            for one, other in self.assigned:
                if one == below and other not in found:
                    found.add(other)
                    ways.append(other)
        return found

    def covered(self, user, element):
        """The rights that prohibitions on the user, or on an attribute that contains it, deny on the element."""
        over, within, denied = self.above(user), self.above(element), 0
        for subject, rights, inc, exc, mode in self.prohibited.values():
            ins, outs = [a in within for a in inc], [a not in within for a in exc]
            if subject in over and (all(ins + outs) if mode == "all" else any(ins + outs)):
                denied |= rights
        return denied

    def rights(self, user, element):
        over, within = self.above(user), self.above(element)
        rights = 3
        for name in within:
            if self.elements[name][1] == "pc":
                given = 0
                for (ua, at), some in self.associated.items():
                    if ua in over and at in within and name in self.above(at):
                        given |= some
                rights &= given
        return rights & ~self.covered(user, element)

    def by_number(self, kind=None):
        names = [name for name in self.elements if kind in (None, self.elements[name][1])]
        return sorted(names, key=lambda name: self.elements[name][0])

    def review(self, kind, of):
        """The list of a review, each item a number, a name and rights."""
        if kind == "caps":
            items = [(self.elements[e][0], e, self.rights(of, e)) for e in self.by_number()]
        else:
            items = [(self.elements[u][0], u, self.rights(u, of)) for u in self.by_number("user")]
        return [item for item in items if item[2]]

    # ---- commands, once they are accepted

    def make(self, command, kind):
        number = min(set(range(len(self.elements) + 1)) - {n for n, _ in self.elements.values()})
        self.elements[command["name"]] = (number, kind)
        if kind != "pc":
            self.assigned.add((command["name"], command["into"]))

    def change(self, command):
        word = command["cmd"]
        if word.startswith("create_"):
            self.make(command, word[len("create_"):])
        elif word == "delete":
            del self.elements[command["name"]]
            self.assigned = {pair for pair in self.assigned if pair[0] != command["name"]}
        elif word == "assign":
            self.assigned.add((command["from"], command["to"]))
        elif word == "deassign":
            self.assigned.remove((command["from"], command["to"]))
        elif word == "associate":
            self.associated[command["ua"], command["at"]] = sum(RIGHTS[r] for r in set(command["rights"]))
        elif word == "dissociate":
            del self.associated[command["ua"], command["at"]]
        elif word == "prohibit":
            subject, = command["subject"].values()
            rights = sum(RIGHTS[r] for r in set(command["rights"]))
            self.prohibited[command["name"]] = (subject, rights, command["inc"], command["exc"], command["mode"])
        elif word == "lift":
            del self.prohibited[command["name"]]
        elif word == "oblige":
            self.obliged[command["name"]] = command
        elif word == "withdraw":
            del self.obliged[command["name"]]

    def respond(self, command, obliged):
        """Each obligation here waits for `dissociate`, and its one action associates the target of that anew."""
        if command["cmd"] == "dissociate":
            for waiting in obliged:
                action = waiting["do"][0]
                self.change({**action, "at": command["at"]})

    def enter(self, command):
        """Makes an accepted command an entry, with what it changes in the kept reviews."""
        before = {n: self.review(*of) for n, (of, _) in self.kept.items()}
        obliged = list(self.obliged.values())
        self.version += 1
        self.change(command)
        self.respond(command, obliged)
        if command["cmd"] == "drop_review":
            del self.kept[command["review"]]
        for n, (of, last) in self.kept.items():
            changed = differing(before[n], self.review(*of))
            self.kept[n] = (of, (self.version, changed) if changed else last)
        if command["cmd"] == "keep":
            number = min(set(range(len(self.kept) + 1)) - set(self.kept))
            self.kept[number] = ((command["kind"], command["of"]), (0, []))


def differing(old, new):
    """Of two lists of a review the elements whose rights differ; of two with one number that of the old list first."""
    before, after = ({item[:2]: item[2] for item in items} for items in (old, new))
    known = [item[:2] for item in old] + [item[:2] for item in new if item[:2] not in before]
    told = [(key, before.get(key, 0), after.get(key, 0)) for key in sorted(known, key=lambda key: key[0])]
    return [[key[1], "%x" % one, "%x" % other] for key, one, other in told if one != other]
