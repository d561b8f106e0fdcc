"""A policy at random, the same in each run: the lines that make it, and a plain program of what a decision is.

Three classes hold 300 user attributes and 300 object attributes, six levels deep, with 2,000 users and 4,000 objects if
not told otherwise, each fourth object in two classes. `root` is in three user attributes of the last level, and asks by
the last of its processes. A policy can be wider: with more attributes in each level, and with so many more assignments of each
user, each object and `root` to attributes of the last level.
"""
import random
from collections import Counter

from feeding import begin, check, feed
from yardstick import PROGRAM

CLASSES, LEVELS, WIDE, USERS, OBJECTS = 3, 6, 50, 2000, 4000
PROCESSES = 20
ASKER, UNKNOWN = PROCESSES, 99  # of one length in a line
GRANTED = "", '"ok":"granted"'


def joined(pairs):
    """The bytes of the lines and of their replies, and how many they are."""
    lines, replies = zip(*pairs)
    return "".join(lines).encode(), "".join(replies).encode(), len(lines)


def access_by(process, i, right, target):
    return '{"cmd":"access","id":%d,"proc":%d,"right":"%s","target":"%s"}\n' % (i, process, right, target)


class Policy:
    """A graph with this many associations and prohibitions, and the lines that make it. `into` has the containers of
    each element, `above` what contains it, and `given` how many associations give a user a right at an element;
    `barring` has the prohibitions that apply to the asker, in order."""

    def __init__(self, associations, prohibitions, users=USERS, objects=OBJECTS, wide=WIDE, more=0):
        self.random = random.Random(1)
        self.users, self.objects = users, objects
        self.wide, self.more, self.assigned = wide, more, 0
        self.into, self.above, self.associations = {}, {}, {}
        self.lines, self.replies, self.version = [], [], 0
        self.classes = [f"c{n}" for n in range(CLASSES)]
        for name, containers in (("pm", []), ("pm_admins", ["pm"]), ("root", ["pm_admins"])):
            self.put(name, containers)
        for name in self.classes:
            self.put(name, [])
            self.make(f'"cmd":"create_pc","name":"{name}","proc":0')
        self.populate()
        self.associate_at_random(associations)
        self.given = {"root": self.given_to("root")}
        for n in range(PROCESSES):
            self.make('"cmd":"start_process","session":0', f'"process":{n + 1},')
        self.barring = []
        for n in range(prohibitions):
            self.prohibit(f"p{n}")

    def populate(self):
        for tree, cmd in (("u", "create_ua"), ("o", "create_oa")):
            for n in range(LEVELS * self.wide):
                self.create(cmd, f"{tree}{n}", self.upper(tree, n))
        for n in range(self.users):
            self.create("create_user", f"user{n}", self.last("u"))
            self.assign_more(f"user{n}", "u", self.more)
        for n in range(self.objects):
            self.create("create_object", f"object{n}", self.last("o"))
            self.assign_more(f"object{n}", "o", self.more + (n % 4 == 0))
        self.assign_more("root", "u", self.more + 3)

    def assign_more(self, name, tree, count):
        for _ in range(count):
            self.assign(name, self.last(tree))

    def make(self, line, told=""):
        """The next line that makes the policy. It is accepted, and the reply tells this too."""
        self.version += 1
        self.lines.append(line)
        self.replies.append(f'"ok":"done",{told}"v":{self.version}')

    def put(self, name, containers):
        """An element that contains no other is in these containers from now on."""
        self.assigned += len(containers) - len(self.into.get(name, []))
        self.into[name] = containers
        self.above[name] = {name}.union(*(self.above[container] for container in containers))

    def upper(self, tree, n):
        """The container of the n-th attribute: a class, or an attribute of the level above."""
        if n < self.wide:
            return self.classes[n % CLASSES]
        return f"{tree}{n - n % self.wide - self.wide + self.random.randrange(self.wide)}"

    def last(self, tree):
        return f"{tree}{(LEVELS - 1) * self.wide + self.random.randrange(self.wide)}"

    def create(self, cmd, name, into):
        self.put(name, [into])
        self.make(f'"cmd":"{cmd}","into":"{into}","name":"{name}","proc":0')

    def assign(self, name, to):
        if to not in self.above[name]:
            self.put(name, self.into[name] + [to])
            self.make(f'"cmd":"assign","from":"{name}","proc":0,"to":"{to}"')

    def associate(self, ua, at, rights):
        self.associations[ua, at] = rights
        named = ",".join(f'"{right}"' for right in rights)
        self.make(f'"at":"{at}","cmd":"associate","proc":0,"rights":[{named}],"ua":"{ua}"')

    def associate_at_random(self, count):
        pairs = {}
        while len(pairs) < count:
            pair = tuple(f"{tree}{self.random.randrange(LEVELS * self.wide)}" for tree in "uo")
            pairs[pair] = ("read",) if len(pairs) % 2 else ("read", "write")
        for (ua, at), rights in pairs.items():
            self.associate(ua, at, rights)

    def given_to(self, user):
        standing = ((at, rights) for (ua, at), rights in self.associations.items() if ua in self.above[user])
        return Counter((right, at) for at, rights in standing for right in rights)

    def subject(self):
        """A subject at random, and whether it is `root`, its process that asks, or an attribute that contains `root`."""
        kind = self.random.choice(("user", "ua", "process"))
        if kind == "process":
            number = 1 + self.random.randrange(PROCESSES)
            return f'{{"process":{number}}}', number == ASKER
        if kind == "user":
            number = self.random.randrange(self.users + 1)
            return ('{"user":"root"}', True) if number == self.users else (f'{{"user":"user{number}"}}', False)
        name = f"u{self.random.randrange(LEVELS * self.wide)}"
        return f'{{"ua":"{name}"}}', name in self.above["root"]

    def prohibit(self, name):
        """A prohibition whose range is narrow, so that most accesses look at every one."""
        subject, applies = self.subject()
        rights = self.random.choice((("read",), ("write",), ("read", "write"), ("assign", "review")))
        mode = self.random.choice(("all", "any"))
        inc = [f"o{self.wide + self.random.randrange((LEVELS - 1) * self.wide)}" for _ in range(self.random.randrange(1, 3))]
        exc = [f"object{self.random.randrange(self.objects)}"] if mode == "all" else []
        named = [",".join(f'"{item}"' for item in items) for items in (exc, inc, rights)]
        self.make(
            f'"cmd":"prohibit","exc":[{named[0]}],"inc":[{named[1]}],"mode":"{mode}","name":"{name}","proc":0,'
            f'"rights":[{named[2]}],"subject":{subject}'
        )
        if applies:
            self.barring.append((name, rights, mode, inc, exc))

    def covers(self, bar, right, target):
        _, rights, mode, inc, exc = bar
        inside = [place in self.above[target] for place in inc]
        outside = [place not in self.above[target] for place in exc]
        ranged = all(inside) and all(outside) if mode == "all" else any(inside) or any(outside)
        return right in rights and ranged

    def answer(self, user, right, target):
        """What the user is told: the first class of the target in which no association gives the right, else the first
        prohibition that applies and covers, else granted. With prohibitions the user is `root`, by its process that asks."""
        given = self.given[user]
        for name in self.classes:
            gives = (given.get((right, at)) and name in self.above[at] for at in self.above[target])
            if name in self.above[target] and not any(gives):
                return f'"class":"{name}",', f'"no":"denied","right":"{right}","target":"{target}"'
        for bar in self.barring:
            if self.covers(bar, right, target):
                return "", f'"no":"denied","prohibition":"{bar[0]}","right":"{right}","target":"{target}"'
        return GRANTED

    def building(self):
        pairs = zip(self.lines, self.replies)
        return joined(tuple('{"id":%d,%s}\n' % (i, text) for text in pair) for i, pair in enumerate(pairs))

    def access(self, i):
        """An access at random by the process that asks, and its reply."""
        right, target = self.random.choice(("read", "write")), f"object{self.random.randrange(self.objects)}"
        return access_by(ASKER, i, right, target), self.replied(i, self.answer("root", right, target))

    def unknown(self, i):
        """An access of the same length that is refused before anything is decided, and its reply."""
        right, target = self.random.choice(("read", "write")), f"object{self.random.randrange(self.objects)}"
        return access_by(UNKNOWN, i, right, target), self.replied(i, ("", '"no":"unknown_process"'))

    def replied(self, i, answer):
        return '{%s"id":%d,%s,"v":%d}\n' % (answer[0], i, answer[1], self.version)

    def accesses(self, count):
        return joined(self.access(i) for i in range(count))

    def refused(self, count):
        return joined(self.unknown(i) for i in range(count))


def build_up(policy):
    """Starts the program and makes the policy."""
    started = begin([PROGRAM, "run"])
    lines, wanted, count = policy.building()
    check(feed(started[0], lines, count)[1], wanted, "building")
    return started
