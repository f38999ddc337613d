"""Through the built program: whether `lint` warns of all that is due, and of nothing else, in methods that are called, too. Of drawn profiles, alone and called by
another method, in contexts that are drawn, the formats that are never used, the names that look misspelled and the paths that no format has are compared with
a second reading (reference/usable.py). A format of a method that is called gets its line, where it gets a part by which nothing can be packed."""
import random
import re
import sys

from . import lint
from .program import bundle, run
from .reference import small
from .reference.usable import Warnings, places

DEAD = re.compile(r"\d+:\d+: warning (\w+\.(?:\w+|-)): .*: nothing fits this format")
USED = re.compile(r"(\d+:\d+): warning (\w+)\.(\w+|-) is never used: it needs ([\w.]+) in the context, which no format that can come before puts there")
ALONE = re.compile(r"(\d+:\d+): warning (\w+)\.(\w+|-): (\w+) is listed here alone, and (\w+) is a field of the header: is it meant\?")
ABSENT = re.compile(r"context: warning ([\w.]+): no format has a field there")
OUTER = """top {
  UNCOMPRESSED { k [4]; t [1]; }
  COMPRESSED one { d =:= '0' [1]; k =:= p; t =:= %s; }
  COMPRESSED two { d =:= '1' [1]; k =:= %s; t =:= static; }
}
"""
NAMES = ["sum", "sun", "sums", "su", "su1", "su2", "seq", "sequ", "ttl", "tt", "til", "total", "totel", "totals", "x1y", "x2y", "xay"]
PROFILES, SPELLED, CALLED = 120, 150, 20  # how many are drawn


def called(text, draw):
    """A drawn profile that another method calls, in one format or in both."""
    return text + OUTER % (draw.choice(["irregular(1)", "static", "lsb(1, 0)"]), draw.choice(["p", "p", "irregular(4)"]))


def spelled(draw):
    """A profile of names that are near to one another."""
    header, formats = draw.sample(NAMES, draw.randrange(1, 4)), []
    for name in "abc"[:draw.randrange(1, 4)]:
        own = draw.sample([it for it in NAMES if it not in header], draw.randrange(3))
        fields = ["%s =:= irregular(8);" % it for it in header] + ["%s =:= '1' [1];" % it for it in own]
        formats.append("  COMPRESSED %s { %s }\n" % (name, " ".join(fields)))
    return "p {\n  UNCOMPRESSED { %s }\n%s}\n" % (" ".join("%s [8];" % it for it in header), "".join(formats))


def trials(draw):
    """Profiles with their tops and contexts."""
    drawn = small.referring()[:PROFILES]
    for text, _, _ in drawn:
        for context in ({}, {name: "2:40" for name in draw.sample(["x", "y", "m", "s", "z", "k.x"], draw.randrange(4))}):
            yield text, "p", context
    for text, _, _ in drawn:
        for context in ({}, {name: "2:40" for name in draw.sample(["k.x", "k.y", "k.m", "k.s", "t", "x", "k", "k.k.x"], draw.randrange(5))}):
            yield called(text, draw), "top", context
    for _ in range(SPELLED):
        yield spelled(draw), "p", {}


def wrong_with(text, top, context):
    """What is wrong with the warnings of a profile; and how many there are."""
    entries = "".join("%s %s\n" % it for it in context.items())
    printed, status = run(bundle("lint --top " + top, text, context=entries))
    lines = printed.splitlines()
    if status:
        return ["%s%s: %s" % (text, entries, printed)], 0
    due, at = Warnings(text, top, context, {it[1] for it in map(DEAD.fullmatch, lines) if it}), places(text)
    used, alone, absent = ([it for it in map(pattern.fullmatch, lines) if it] for pattern in (USED, ALONE, ABSENT))
    never, names = due.never_used(), due.misspelled()
    wrong = [] if sorted("%s.%s" % it.group(2, 3) for it in used) == sorted(never) else ["never used: %s" % sorted(never)]
    wrong += ["a path: %s" % it[0] for it in used if it[4] not in never.get("%s.%s" % it.group(2, 3), ())]
    wrong += [] if sorted(("%s.%s" % it.group(2, 3), it[4]) for it in alone) == sorted(names) else ["listed alone: %s" % sorted(names)]
    wrong += ["a field: %s" % it[0] for it in alone if it[5] not in names.get(("%s.%s" % it.group(2, 3), it[4]), ())]
    wrong += ["a place: %s" % it[0] for it in used + alone if it[1] != at[it[2]]]
    wrong += [] if [it[1] for it in absent] == due.unknown() else ["no field: %s" % due.unknown()]
    return ["%s\n%s%s%s" % (it, text, entries, printed) for it in wrong], len(used) + len(alone) + len(absent)


def dead_inside(draw):
    """Whether a format of a method that is called gets its line, where it gets a part by which nothing can be packed (lint.py): for each such part what is wrong."""
    for text, methods, _ in small.referring()[:CALLED]:
        whole = called(text, draw)
        named = {it[1] for it in map(DEAD.fullmatch, run(bundle("lint --top top", whole))[0].splitlines()) if it}
        for form in methods[-1].formats:
            for part in lint.PARTS if "p." + form.shown() not in named else ():
                changed, due = lint.due_of(whole, form.name, [], part)
                printed, status = run(bundle("lint --top top", changed))
                yield None if status == 0 and due in printed else "%s\n%s%s" % (due, changed, printed)


def main():
    draw, wrong, passed, warnings = random.Random(4997), [], 0, 0
    for text, top, context in trials(draw):
        found, count = wrong_with(text, top, context)
        wrong, passed, warnings = wrong + found, passed + (not found), warnings + count
    inside = list(dead_inside(draw))
    wrong, passed = wrong + [it for it in inside if it], passed + inside.count(None)
    for it in wrong[:5]:
        print("warnings:", it)
    print("warnings of lint: %d passed, %d failed; %d warnings" % (passed, len(wrong), warnings))
    return 1 if wrong or not warnings or not inside else 0


if __name__ == "__main__":
    sys.exit(main())
