#!/usr/bin/env python3
"""Tells why a policy document isn't sound: the first rule that it breaks, and where.

Usage: why_unsound.py < DOCUMENT

It writes `sound` and ends with status 0, or one line `PLACE: RULE` and ends with status 1. A place is a key, with the number
of the item from 0 where it is one, as `assignments[3]`. The rules and their order are those of docs/PROTOCOL.md.
"""
import json
import re
import sys

LISTS = ("rights", "elements", "assignments", "associations", "prohibitions")
KINDS = ("user", "ua", "object", "oa", "pc")
MAY_ASSIGN = {("user", "ua"), ("ua", "ua"), ("ua", "pc"), ("object", "oa"), ("object", "pc"), ("oa", "oa"), ("oa", "pc")}
MAY_ASSOCIATE = {("ua", "ua"), ("ua", "oa"), ("ua", "object")}
PLACES = ("ua", "oa", "object")
OPENING = {"pm": "pc", "pm_admins": "ua", "root": "user"}
OPENING_ASSIGNMENTS = [("pm_admins", "pm"), ("root", "pm_admins")]
OPENING_RIGHTS = """read write create_user create_ua create_oa create_object delete assign assign_to deassign deassign_from
    associate associate_to prohibit prohibit_to oblige review""".split()
COMMANDS = """version open_session close_session start_process end_process create_pc create_user create_ua create_oa
    create_object delete assign deassign associate dissociate prohibit lift define_right oblige withdraw keep drop_review
    access caps entries kept changes survey""".split()
MOST = {"rights": 64, "elements": 16384, "assignments": 131072, "associations": 65536, "prohibitions": 4096}
NAME = re.compile(r"[A-Za-z0-9_.-]{1,64}")


class Unsound(Exception):
    """A rule that is broken, with its place."""


def need(holds, place, rule):
    if not holds:
        raise Unsound(f"{place}: {rule}")


def number_of(text):
    raise Unsound(f"document: {text} is no number of JSON")


# ---- forms


def is_name(value):
    return isinstance(value, str) and NAME.fullmatch(value) is not None


def need_names(value, place, least):
    need(isinstance(value, list) and all(map(is_name, value)), place, "a list of names")
    need(least <= len(value) <= 32, place, f"{least} to 32 names")


def whom(subject):
    """The keys of those that may be denied."""
    return [key for key in ("user", "ua", "process") if isinstance(subject, dict) and key in subject]


def need_prohibition(p, place):
    need(isinstance(p, dict), place, "an object")
    for key in ("name", "subject", "rights", "inc", "exc", "mode"):
        need(key in p, f"{place}.{key}", "has to be there")
    need(is_name(p["name"]), f"{place}.name", "a name")
    keys = whom(p["subject"])
    is_denied = keys in (["user"], ["ua"]) and is_name(p["subject"][keys[0]])
    need(is_denied, f"{place}.subject", "`user` or `ua` alone, with a name")
    need_names(p["rights"], f"{place}.rights", 1)
    need_names(p["inc"], f"{place}.inc", 0)
    need_names(p["exc"], f"{place}.exc", 0)
    need(len(p["inc"]) + len(p["exc"]) <= 32, f"{place}.exc", "at most 32 names in both sets together")
    need(p["mode"] in ("all", "any"), f"{place}.mode", "`all` or `any`")


def need_item(key, item, place):
    if key == "rights":
        need(is_name(item), place, "a name")
    elif key == "elements":
        is_pair = isinstance(item, list) and len(item) == 2
        need(is_pair and item[0] in KINDS and is_name(item[1]), place, "a list of a kind and a name")
    elif key == "assignments":
        need(isinstance(item, list) and len(item) == 2 and all(map(is_name, item)), place, "a list of two names")
    elif key == "associations":
        is_three = isinstance(item, list) and len(item) == 3
        need(is_three and is_name(item[0]) and is_name(item[2]), place, "a list of a name, rights and a name")
        need_names(item[1], f"{place}[1]", 1)
    else:
        need_prohibition(item, place)


def forms(document):
    need(isinstance(document, dict), "document", "an object")
    for key in LISTS:
        need(key in document, key, "has to be there")
        need(isinstance(document[key], list), key, "a list")
        for i, item in enumerate(document[key]):
            need_item(key, item, f"{key}[{i}]")


# ---- rules, each over the whole document


def need_once(key, items, before, rule):
    seen = set(before)
    for i, item in enumerate(items):
        need(item not in seen, f"{key}[{i}]", rule)
        seen.add(item)


def nothing_twice(d):
    need_once("elements", [e[1] for e in d["elements"]], OPENING, "another element, or one of the opening, has the name")
    need_once("prohibitions", [p["name"] for p in d["prohibitions"]], [], "another prohibition has the name")
    need_once("rights", d["rights"], OPENING_RIGHTS, "another right, or one of the opening, has the name")
    need_once("assignments", map(tuple, d["assignments"]), OPENING_ASSIGNMENTS, "stands before it, or at the opening")
    need_once("associations", [(a[0], a[2]) for a in d["associations"]], [], "another association joins the pair")


def denied(p):
    """The kind and the name of the prohibition's subject."""
    key = whom(p["subject"])[0]
    return key, p["subject"][key]


def kinds_of(d):
    return {**OPENING, **{e[1]: e[0] for e in d["elements"]}}


def used_names(d):
    kinds, rights = kinds_of(d), {*OPENING_RIGHTS, *d["rights"]}

    def need_known(names, known, place):
        for name in names:
            need(name in known, place, f"nothing is called {name}")

    for i, pair in enumerate(d["assignments"]):
        need_known(pair, kinds, f"assignments[{i}]")
    for i, (ua, listed, at) in enumerate(d["associations"]):
        need_known([ua, at], kinds, f"associations[{i}]")
        need_known(listed, rights, f"associations[{i}]")
    for i, p in enumerate(d["prohibitions"]):
        need_known([denied(p)[1], *p["inc"], *p["exc"]], kinds, f"prohibitions[{i}]")
        need_known(p["rights"], rights, f"prohibitions[{i}]")


def kinds(d):
    kind = kinds_of(d)
    for i, (x, y) in enumerate(d["assignments"]):
        need((kind[x], kind[y]) in MAY_ASSIGN, f"assignments[{i}]", f"a {kind[x]} is not assigned to a {kind[y]}")
    for i, (ua, _, at) in enumerate(d["associations"]):
        need((kind[ua], kind[at]) in MAY_ASSOCIATE, f"associations[{i}]", f"no association joins a {kind[ua]} and a {kind[at]}")
    for i, p in enumerate(d["prohibitions"]):
        key, name = denied(p)
        need(kind[name] == key, f"prohibitions[{i}].subject", f"{name} is a {kind[name]}")
        for key in ("inc", "exc"):
            for name in p[key]:
                need(kind[name] in PLACES, f"prohibitions[{i}].{key}", f"{name} is a {kind[name]}")


def no_cycle(d):
    """Takes away what has no container left, again and again: what stays leads in a circle."""
    pairs = OPENING_ASSIGNMENTS + [tuple(pair) for pair in d["assignments"]]
    waits, inside = {name: 0 for name in kinds_of(d)}, {}
    for x, y in pairs:
        waits[x] += 1
        inside.setdefault(y, []).append(x)
    ready = [name for name, count in waits.items() if count == 0]
    while ready:
        for x in inside.get(ready.pop(), ()):
            waits[x] -= 1
            if waits[x] == 0:
                ready.append(x)
    for i, (x, _) in enumerate(d["assignments"]):
        need(waits[x] == 0, f"assignments[{i}]", f"{x} is in itself, or in what is")


def containers(d):
    assigned = {x for x, _ in d["assignments"]}
    for i, (kind, name) in enumerate(d["elements"]):
        need(kind == "pc" or name in assigned, f"elements[{i}]", f"{name} is in nothing")


def ranges(d):
    for i, p in enumerate(d["prohibitions"]):
        need(p["inc"] or p["exc"], f"prohibitions[{i}]", "both its sets are empty")


def words(d):
    for i, name in enumerate(d["rights"]):
        need(name not in COMMANDS, f"rights[{i}]", f"{name} is the word of a command")


def counts(d):
    opening = {"rights": len(OPENING_RIGHTS), "elements": len(OPENING), "assignments": len(OPENING_ASSIGNMENTS)}
    for key in LISTS:
        beside = opening.get(key, 0)
        need(len(d[key]) + beside <= MOST[key], key, f"at most {MOST[key] - beside}")


RULES = (forms, nothing_twice, used_names, kinds, no_cycle, containers, ranges, words, counts)


def why_unsound(text):
    """The first broken rule with its place; None where the document is sound."""
    try:
        document = json.loads(text.decode(), parse_constant=number_of)
        for rule in RULES:
            rule(document)
    except Unsound as broken:
        return str(broken)
    except (ValueError, RecursionError):
        return "document: no JSON"
    return None


def main():
    why = why_unsound(sys.stdin.buffer.read())
    print(why or "sound")
    return 1 if why else 0


if __name__ == "__main__":
    sys.exit(main())
