"""Policies at random: lines, most of which a machine accepts, and a plain program of which document those come to.

The document is put in order here once more, by sorting, so that what the program writes is held to the protocol's page.
"""
import json
import random

OPENING_RIGHTS = ("read write create_user create_ua create_oa create_object delete assign assign_to deassign deassign_from associate "
                  "associate_to prohibit prohibit_to oblige review").split()
# by the kind that has each most often: names that differ by case, by length and by their last byte
NAMES = {"pc": ["pc", "PC", "p", "0"], "ua": ["a", "aa", "a-", "a.", "A", "pm_admins"], "oa": ["o", "oo", "o_", "O", "9", "10"],
         "user": ["u", "U", "ab", "x" * 64, "root"], "object": ["b", "ob", "x" * 63, "Z", "z9"]}
RIGHTS = ["sign", "Sign", "a", "0", "seal"]


def canonical(document):
    """The one text of the document's policy."""
    order = lambda names: sorted(set(names), key=lambda name: (OPENING_RIGHTS + document["rights"]).index(name))
    return json.dumps({
        "assignments": sorted(document["assignments"]),
        "associations": sorted(([ua, order(rights), at] for ua, rights, at in document["associations"]), key=lambda one: (one[0], one[2])),
        "elements": sorted(document["elements"], key=lambda element: element[1]),
        "prohibitions": [{**one, "rights": order(one["rights"])} for one in document["prohibitions"]],
        "rights": document["rights"],
    }, sort_keys=True, separators=(",", ":")).encode() + b"\n"


class Policy:
    """What the accepted commands of a history have made."""

    def __init__(self):
        self.elements, self.assigned, self.associated, self.rights, self.prohibited = {}, set(), {}, [], {}

    def accept(self, line):
        command, made = line["cmd"], line.get("name")
        if command.startswith("create_"):
            self.elements[made] = command[len("create_"):]
            if command != "create_pc":
                self.assigned.add((made, line["into"]))
        elif command == "delete":
            del self.elements[made]
            self.assigned = {pair for pair in self.assigned if pair[0] != made}
        elif command in ("assign", "deassign"):
            (self.assigned.add if command == "assign" else self.assigned.remove)((line["from"], line["to"]))
        elif command == "associate":
            self.associated[line["ua"], line["at"]] = line["rights"]
        elif command == "dissociate":
            del self.associated[line["ua"], line["at"]]
        elif command == "define_right":
            self.rights.append(made)
        elif command == "prohibit":
            self.prohibited[made] = {key: line[key] for key in ("exc", "inc", "mode", "name", "rights", "subject")}
        elif command == "lift":
            del self.prohibited[made]

    def document(self):
        return {
            "rights": self.rights,
            "elements": [[kind, name] for name, kind in self.elements.items()],
            "assignments": [list(pair) for pair in self.assigned],
            "associations": [[ua, rights, at] for (ua, at), rights in self.associated.items()],
            "prohibitions": [one for one in self.prohibited.values() if "process" not in one["subject"]],
        }


def command(picks):
    """A command at random; some two of five are accepted once enough names stand."""

    def name(*kinds):
        return picks.choice(NAMES[picks.choice(kinds if picks.random() < 0.9 else list(NAMES))])

    def create(kind, *into):
        return lambda: {"cmd": "create_" + kind, "into": name(*into), "name": name(kind)}

    def pair(command, one, *others):
        return lambda: {"cmd": command, "from": name(one), "to": name(*others)}

    def some(least, take):
        return [take() for _ in range(picks.randrange(least, 4))]

    def right():
        return picks.choice(OPENING_RIGHTS[:3] + RIGHTS)

    def place():
        return name("oa", "object")

    def prohibition():
        subject = picks.choice([{"user": name("user")}, {"ua": name("ua")}, {"process": picks.randrange(2)}])
        return {"cmd": "prohibit", "exc": some(0, place), "inc": some(0, place), "mode": picks.choice(["all", "any"]),
                "name": name(*NAMES), "rights": some(1, right), "subject": subject}

    return picks.choice([
        lambda: {"cmd": "create_pc", "name": name("pc")},
        *[create("ua", "pc", "ua"), create("oa", "pc", "oa"), create("user", "ua"), create("object", "oa")] * 2,
        pair("assign", "ua", "pc", "ua"), pair("assign", "oa", "pc", "oa"), pair("assign", "user", "ua"), pair("assign", "object", "oa"),
        pair("deassign", "ua", "ua", "pc"), pair("deassign", "object", "oa"),
        lambda: {"cmd": "delete", "name": name(*NAMES)},
        *[lambda: {"at": name("oa", "object", "ua"), "cmd": "associate", "rights": some(1, right), "ua": name("ua")}] * 4,
        lambda: {"at": name("oa", "object"), "cmd": "dissociate", "ua": name("ua")},
        lambda: {"cmd": "define_right", "name": picks.choice(RIGHTS)},
        *[prohibition] * 4,
        lambda: {"cmd": "lift", "name": name(*NAMES)},
        lambda: {"cmd": "open_session", "user": name("user")},
        lambda: {"cmd": "start_process", "session": picks.randrange(4)},
    ])()


def history(seed, count=400):
    """So many lines at random. Those of one seed are always the same."""
    picks = random.Random(seed)
    lines = [command(picks) for _ in range(count)]
    return [line if line["cmd"] in ("open_session", "start_process") else {**line, "proc": 0} for line in lines]
