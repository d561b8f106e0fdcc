"""Lines of replies of which a byte is changed, left out or doubled, and which of them are replies still.

The form of each reply is written down here once more, member by member in order of the keys, as patterns: so what reads
replies is held to the protocol's page, and not to what it says itself.
"""
import random
import re


def up_to(most):
    """The decimal numbers from 0 to this one, written in one way."""
    digits = str(most)
    parts = ["0", "[1-9][0-9]{0,%d}" % (len(digits) - 2), digits]
    for i, digit in enumerate(digits):
        least = 1 if i == 0 else 0
        if int(digit) > least:
            parts.append("%s[%d-%d][0-9]{%d}" % (digits[:i], least, int(digit) - 1, len(digits) - i - 1))
    return "(?:%s)" % "|".join(parts)


def one_of(words):
    return '"(?:%s)"' % "|".join(words.split())


def listed(*forms):
    item = r"\[%s\]" % ",".join(forms)
    return r"\[(?:%s(?:,%s)*)?\]" % (item, item)


WHOLE, SHORT = up_to(2 ** 64 - 1), up_to(2 ** 32 - 1)
NAME, RIGHTS = '"[A-Za-z0-9_.-]{1,64}"', '"(?:0|[1-9a-f][0-9a-f]{0,15})"'
PLAIN = ("unknown_process unknown_session unknown_review bad_kinds name_taken already absent cycle occupied in_use last_container "
         "builtin empty_range")
KEYS = ("action after at class cmd counts do element exc field fired from id if inc into kind list mode name no obligation of ok on "
        "proc process prohibition review right rights session subject table target to ua user users v when why")
TABLES = "elements assignments associations prohibitions obligations sessions processes reviews rights history"
FIRED = "(?!0)" + SHORT

# the members of each reply but `id`, in order; those that may be missing begin with `?`
REPLIES = [
    [("?fired", FIRED), ("ok", '"done"')],
    *([("?fired", FIRED), ("ok", '"done"'), (made, SHORT)] for made in ("process", "review", "session")),
    [("?fired", FIRED), ("ok", '"granted"')],
    [("list", listed(NAME, RIGHTS)), ("ok", one_of("caps entries kept"))],
    [("at", WHOLE), ("list", listed(NAME, RIGHTS, RIGHTS)), ("ok", '"changes"')],
    [("counts", listed(NAME, WHOLE)), ("ok", '"survey"')],
    [("no", one_of("too_long not_json not_request unknown_command ahead keep_fault " + PLAIN))],
    [("field", one_of(KEYS)), ("no", '"bad_field"')],
    [("name", NAME), ("no", '"unknown_name"')],
    [("class", NAME), ("no", '"denied"'), ("right", NAME), ("target", NAME)],
    [("no", '"denied"'), ("prohibition", NAME), ("right", NAME), ("target", NAME)],
    [("no", '"full"'), ("table", one_of(TABLES))],
    [("action", SHORT), ("no", '"response_refused"'), ("obligation", NAME), ("why", one_of(PLAIN + " unknown_name denied full"))],
]


def pattern(members):
    """The text of the members, with `id` and `v` at their places, and a comma behind each."""
    rows = sorted([*members, ("?id", WHOLE), ("v", WHOLE)], key=lambda row: row[0].lstrip("?"))
    return "".join('(?:"%s":%s,)%s' % (key.lstrip("?"), form, "?" if key[0] == "?" else "") for key, form in rows)


REPLY = re.compile("{(?:%s)}" % "|".join(pattern(members) for members in REPLIES))


def is_reply(line):
    return line.endswith(b"}") and REPLY.fullmatch(line[:-1].decode("latin-1") + ",}") is not None


# any byte, and those of texts more often
BYTES = bytes(range(256)) + 8 * bytes(range(32, 127))


def changed(picks, line, at):
    other = picks.choice([byte for byte in BYTES if byte not in (line[at], 10)])
    return line[:at] + bytes([other]) + line[at + 1:]


def left_out(_, line, at):
    return line[:at] + line[at + 1:]


def doubled(_, line, at):
    return line[:at + 1] + line[at:]


WAYS = [changed, left_out, doubled]


def alter(lines, count, seed):
    """So many lines, each one of these of which a byte is changed, left out or doubled; and the way."""
    picks = random.Random(seed)
    for i in range(count):
        way, line = WAYS[i % len(WAYS)], picks.choice(lines)
        yield way, way(picks, line, picks.randrange(len(line)))
