#!/usr/bin/env python3
"""Draws a policy document as a graph, for Graphviz.

Usage: diagram.py < DOCUMENT | dot -Tsvg > PICTURE

Users are ellipses, user attributes rounded boxes, object attributes boxes, objects notes and classes folders. An assignment is an
arrow to what contains, an association a dashed arrow with its rights. A prohibition is red: it denies its subject rights on
what lies in its sets, and on what doesn't lie in those with a dot at the arrow's end. The document has to be sound.
"""
import json
import sys

SHAPES = {
    "user": "shape=ellipse",
    "ua": 'shape=box, style="rounded"',
    "oa": "shape=box",
    "object": "shape=note",
    "pc": "shape=folder",
}
OPENING = [["pc", "pm"], ["ua", "pm_admins"], ["user", "root"]]
OPENING_ASSIGNMENTS = [["pm_admins", "pm"], ["root", "pm_admins"]]


def subject(p):
    """The name of whom the prohibition denies."""
    return p["subject"].get("user") or p["subject"].get("ua")


def used(document):
    """The names that the document speaks of."""
    names = {name for _, name in document["elements"]}
    for pair in document["assignments"]:
        names.update(pair)
    for ua, _, at in document["associations"]:
        names.update([ua, at])
    for p in document["prohibitions"]:
        names.update([subject(p), *p["inc"], *p["exc"]])
    return names


def nodes(document):
    names = used(document)
    opening = [element for element in OPENING if element[1] in names]
    for kind, name in opening + document["elements"]:
        yield f'"{name}" [{SHAPES[kind]}]'


def prohibition(p):
    node = f"prohibition {p['name']}"
    label = f"{p['name']}: no {', '.join(p['rights'])}\\n{p['mode']}"
    yield f'"{node}" [shape=octagon, color=red, fontcolor=red, label="{label}"]'
    yield f'"{subject(p)}" -> "{node}" [color=red, dir=none]'
    for name in p["inc"]:
        yield f'"{node}" -> "{name}" [color=red]'
    for name in p["exc"]:
        yield f'"{node}" -> "{name}" [color=red, arrowhead=odot]'


def lines(document):
    names = used(document)
    yield from nodes(document)
    opening = [pair for pair in OPENING_ASSIGNMENTS if set(pair) <= names]
    for x, y in opening + document["assignments"]:
        yield f'"{x}" -> "{y}"'
    for ua, rights, at in document["associations"]:
        yield f'"{ua}" -> "{at}" [style=dashed, constraint=false, label="{", ".join(rights)}"]'
    for p in document["prohibitions"]:
        yield from prohibition(p)


def main():
    document = json.load(sys.stdin)
    print("digraph policy {")
    print("  rankdir=BT;")
    for line in lines(document):
        print(f"  {line};")
    print("}")


if __name__ == "__main__":
    main()
