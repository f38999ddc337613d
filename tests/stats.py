"""Through the built program: what `stats` prints, against a reckoning from what `fields` prints of the same items one by one, each in the context that those before left, and from what `pack` prints of
those that are refused. The items are those of small profiles, some of them damaged, and the headers of data/ with bad items between them."""
import random
import sys

from examples import headers
from . import fields, roundtrip
from .counting import count_calls
from .program import EXAMPLES

MOST = 24  # items of a small profile in one run
LONG = "4097:" + "00" * 513  # a header above the limit


def mean(bits, items):
    """The mean with one decimal, rounded to the nearest tenth, halves up."""
    return "%d.%d" % divmod((20 * bits + items) // (2 * items), 10) if items else "-"


def row(name, bits, items):
    return name, str(items), str(bits), mean(bits, items)


def field_rows(known, method, form, levels, depth):
    """The rows of the fields that a format lists, where they have bits, by the fields of each filling with it; below each those of what is inside it."""
    rows = []
    for name in known[method, form]:
        shown = [next(it for it in fields_of if it[0] == name) for fields_of in levels]
        bits = sum(len(lower) for _, _, _, lower, _, _ in shown)
        if bits:
            rows += [row(" " * depth + name, bits, len(shown)), *inside_rows(known, shown, depth + 2)]
    return rows


def inside_rows(known, shown, depth):
    """The rows of the formats of the method that a field calls, by what `fields` shows of the field, packet by packet: those that some packet has, in the order of the text."""
    rows = []
    for method, form in known:
        mine = [it for it in shown if it[4] == method + "." + form]
        if mine:
            levels = [fields.level(inside, len(inside[0]) - len(inside[0].lstrip()) if inside else 0) for *_, inside in mine]
            rows += [row(" " * depth + method + "." + form, sum(len(it[3]) for it in mine), len(mine)), *field_rows(known, method, form, levels, depth + 2)]
    return rows


def counted(profile, top, trees):
    """The head line and the rows that the trees of `fields` give. A field has the bits of the second side that is printed of it; the fields come in the order of the profile's text."""
    rows, every, known = [("format", "items", "bits", "mean")], 0, fields.Listings(profile).known
    for method, form in known:
        if method != top:
            continue
        found = [(fields.level(body, 2), int(head.group(4))) for head, body in trees if head.group(3) == form]
        whole, every = sum(bits for _, bits in found), every + sum(bits for _, bits in found)
        rows += [row(form, whole, len(found)), *field_rows(known, method, form, [it for it, _ in found], 2)]
    widths = [max(map(len, column)) for column in zip(*rows)]
    lines = ["  " + "  ".join(cell.ljust(width) for cell, width in zip(cells, widths)).rstrip() for cells in rows]
    return ["items %d bits %d mean %s" % (len(trees), every, mean(every, len(trees))), *lines]


def alone(words, profile, entries, items):
    """The trees of the items that are packed, and the lines of the others, by a call for each."""
    trees, refused = [], []
    for number, item in enumerate(items, 1):
        seen, status = fields.printed(words % "fields" + " --items --context", profile, {}, "items", [item], entries)
        if status == 0:
            end = seen.index("=== context")
            trees += fields.trees(seen[:end])
            entries = "".join(it + "\n" for it in seen[end + 1:])
        else:
            (line,), _ = fields.printed(words % "pack", profile, {}, "items", [item], entries)
            refused.append(line.replace("item 1:", "item %d:" % number, 1))
    return trees, refused


def damaged(draw, item):
    """An item that is mostly refused: a bit less or a bit more, without a value, or one that is too long."""
    header, *values = item.split(" ")
    bits = fields.bits_of(header)
    shapes = [roundtrip.text(bits[:-1]), roundtrip.text(bits + "1"), LONG]
    return draw.choice([" ".join([it, *values]) for it in shapes] + [header, "0:"])


def small(draw):
    """For each run on a small profile whether it prints what is due, and how many items it has."""
    subjects = [(roundtrip.sample(name), start) for name, contexts in roundtrip.CONTEXTS.items() for start in contexts]
    for subject, start in [*subjects, *list(roundtrip.referring(draw))[::3]]:
        items = [roundtrip.line_of(*it) for it in roundtrip.items(subject, draw)[:MOST]]
        items = [damaged(draw, it) if draw.randrange(5) == 0 else it for it in items]
        entries = "".join("%s %s\n" % (path, roundtrip.text(bits)) for path, bits in start.items())
        trees, refused = alone(subject.words("%s"), subject.profile, entries, items)
        seen = fields.printed(subject.words("stats"), subject.profile, {}, "items", items, entries)
        yield "%s from %s" % (subject.profile, start), seen == (counted(subject.profile, subject.name, trees) + refused, 0), len(items)


def mixed_flows(draw):
    """Each flow of headers: what it is called, the profile and its top, its items, those with a bad one after each tenth, and the lines of the bad ones. These leave the context."""
    for kind, top in headers.TOPS.items():
        profile = (EXAMPLES / "profiles" / (kind + ".profile")).read_text()
        every = headers.headers_of(kind, (EXAMPLES / "data" / (kind + "-headers.hex")).read_text().splitlines())
        for place, flow in enumerate(headers.by_flow(every).values()):
            items, mixed, refused = list(headers.items(kind, flow)), [], []
            for at, item in enumerate(items, 1):
                mixed.append(item)
                if at % 10 == 0:
                    mixed.append(draw.choice(["0:", LONG, item.split(" ")[0]]))
                    (line,), _ = fields.printed("pack --top " + top, profile, {}, "items", mixed[-1:])
                    refused.append(line.replace("item 1:", "item %d:" % len(mixed), 1))
            yield "flow %d of %s" % (place, kind), profile, top, items, mixed, refused


def large(draw):
    """For each flow of headers whether it is right, and how many headers it has."""
    for name, profile, top, items, mixed, refused in mixed_flows(draw):
        listed, _ = fields.printed("fields --items --top " + top, profile, {}, "items", items)
        seen = fields.printed("stats --top " + top, profile, {}, "items", mixed)
        yield name, seen == (counted(profile, top, fields.trees(listed)) + refused, 0), len(items)


def main():
    draw = random.Random(4997)
    sys.exit(count_calls("stats", "items", [*small(draw), *large(draw)]))


if __name__ == "__main__":
    main()
