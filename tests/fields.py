"""Through the built program: what `fields` prints. Of small profiles each line, for items and for packets in contexts that go on, is compared with the tree of the filling that a slow search over
all fillings finds best (searching.py). Of the headers of data/ the sides that are printed are joined: those of the header fields are to give the header, and those of the listed fields the packet;
so for each field that calls a method, too."""
import functools
import random
import re
import sys

from examples import headers
from front import notation
from . import program, roundtrip
from .counting import count_calls
from .roundtrip import line_of, text

MOST = 60  # items of a small profile in one run
HEAD = re.compile(r"(item|packet) ([1-9]\d*) (\w+|-) (\d+) bits")


# ---- the tree of a filling, in Python


def word(methods, field, inner):
    """What encodes a field: a library method, or a method with the format of the filling inside."""
    if field.is_called():
        callee = methods[field.encoding[1]]
        return "%s.%s" % (callee.name, callee.formats[inner[field.name].index].shown())
    return field.library() or "-"


def rows(methods, k, filling, indent=""):
    """Of each field its name, its part, both sides and what encodes it; those of a filling inside come after, further in."""
    for field in methods[k].formats[filling.index].fields:
        upper, lower = filling.level.sides[field.name]
        yield indent + field.name, field.part, text(upper), text(lower), word(methods, field, filling.inner)
        if field.name in filling.inner:
            yield from rows(methods, field.encoding[1], filling.inner[field.name], indent + "  ")


def tree(subject, what, number, filling):
    """The lines for a filling of the top."""
    top = len(subject.methods) - 1
    listed = list(rows(subject.methods, top, filling))
    widths = [max(map(len, column)) for column in zip(*listed)]
    lines = ["  " + "  ".join(cell.ljust(width) for cell, width in zip(row, widths)).rstrip() for row in listed]
    return ["%s %d %s %d bits" % (what, number, subject.methods[top].formats[filling.index].shown(), len(filling.packed)), *lines]


def small_trials(subject, start, draw):
    """The flags, the part, its lines and what is due: items in a context that goes on, the packets back with some bits after them, and both up to one that is refused."""
    context, items, packets, due, refused = dict(start), [], [], {"item": [], "packet": []}, None
    for header, asked in roundtrip.items(subject, draw)[:MOST]:
        found = subject.fillings(context, header, asked)
        if not found:
            refused = refused or (line_of(header, asked) if not items else None)
            continue
        items.append(line_of(header, asked))
        packets.append(text(found[0].packed + "".join(draw.choice("01") for _ in range(len(items) % 10))))
        for what, lines in due.items():
            lines += tree(subject, what, len(items), found[0])
        context.update(found[0].entries)
    end = ["=== context"] + ["%s %s" % (path, text(bits)) for path, bits in context.items()]
    yield " --items --context", "items", items, due["item"] + end, 0
    yield " --context", "packets", packets, due["packet"] + end, 0
    yield "", "packets", packets + ["0:"], due["packet"] + ["packet %d: U1 Truncated" % (len(packets) + 1)], 1
    yield " --items", "items", items + ["0:"], due["item"] + [refusal(subject, "item %d" % (len(items) + 1))], 1
    if refused:
        yield " --items", "items", [refused], ["item 1: F3 NoFormat"], 1


def refusal(subject, item):
    """The line for an item of no bits and without values, of a profile whose headers have some."""
    asked = [it.name for it in subject.methods[-1].formats[0].fields if it.asked]
    return "%s: F2 Asked %s" % (item, asked[0]) if asked else "%s: F3 NoFormat" % item


def printed(words, profile, context, part, lines, entries=""):
    """The lines that the program prints, and its status; the entries are lines of the context that stand before those of `context`."""
    entries += "".join("%s %s\n" % (path, text(bits)) for path, bits in context.items())
    data = "=== words\n%s\n=== profile\n%s=== context\n%s=== %s\n%s" % (words, profile, entries, part, "".join(it + "\n" for it in lines))
    return program.lines(data)


def small(draw):
    """For each call on a small profile whether it prints what is due, and how many lines these are."""
    for name, contexts in roundtrip.CONTEXTS.items():
        for start in contexts:
            subject = roundtrip.sample(name)
            for flags, part, lines, due, status in small_trials(subject, start, draw):
                seen = printed(subject.words("fields") + flags, subject.profile, start, part, lines)
                yield "%s%s from %s" % (name, flags, start), seen == (due, status), len(due)


# ---- the headers of data/


class Listings:
    """For each method and format of a text the names that the format lists."""

    def __init__(self, profile):
        self.known = {}
        for method in notation.methods_and_constants(notation.tokens_of(profile))[0]:
            place = 0
            while place < len(method.body):
                begin = notation.after_mark(method.body, place, "{") - 1
                after = notation.after_brackets(method.body, begin)
                if method.body[place].text == "COMPRESSED":
                    name = method.body[place + 1].text if begin > place + 1 else "-"
                    names = [it[0].text for it in notation.split(method.body[begin + 1:after - 1], ";") if it]
                    self.known[method.name, name] = [it for it in names if it != "ENFORCE"]
                place = after


@functools.lru_cache(None)
def bits_of(side):
    """The bits of a text of bits."""
    count, digits = side.split(":")
    return "".join(format(it, "08b") for it in bytes.fromhex(digits))[:int(count)]


def level(lines, depth):
    """The fields of a filling with its lines, whose names stand so far in: name, part, both sides, what encodes it, and the lines of the filling inside."""
    found = []
    for line in lines:
        if line.startswith(" " * (depth + 1)):
            found[-1][-1].append(line)
        else:
            name, part, upper, lower, encoded = line.split()
            found.append((name, part, bits_of(upper), bits_of(lower), encoded, []))
    return found


def joined(listings, method, form, lines, depth):
    """The header and the packed bits that the sides of a filling give, where those of the fillings inside give their fields' sides; else nothing."""
    fields = level(lines, depth)
    for _, _, upper, lower, encoded, inside in fields:
        if ("." in encoded) != bool(inside) or inside and joined(listings, *encoded.split("."), inside, depth + 2) != (upper, lower):
            return None
    sides = {name: lower for name, _, _, lower, _, _ in fields}
    if len(sides) != len(fields) or any(not it.isidentifier() for it in sides):
        return None
    return "".join(upper for _, part, upper, *_ in fields if part == "header"), "".join(sides[it] for it in listings.known[method, form])


def trees(lines):
    """The head and the other lines of each tree."""
    found = []
    for line in lines:
        if line.startswith(" "):
            found[-1][1].append(line)
        else:
            found.append((HEAD.fullmatch(line), []))
    return found


def is_aligned(lines):
    """Whether each column of a tree begins at one place, no line ends with a blank, and the columns are as narrow as they can be."""
    starts = [[it.start() for it in re.finditer(r"(?<= )\S", line)] for line in lines]
    cells = [line.split() for line in lines]
    ends = [max(start[at] + len(cell[at]) for start, cell in zip(starts, cells)) for at in range(4)]
    return all(it[1:] == starts[0][1:] for it in starts) and starts[0][1:] == [it + 2 for it in ends] and all(not it.endswith(" ") for it in lines)


def flow_is_right(kind, profile, flow):
    """Whether what is printed of a flow's headers, and of its packets, gives each header and each packet."""
    top, items = headers.TOPS[kind], list(headers.items(kind, flow))
    listings = Listings(profile)
    packed, done = printed("pack --context --top " + top, profile, {}, "items", items)
    packets, context = packed[:len(flow)], packed[len(flow):]
    for what, flags, part, lines in (("item", " --items", "items", items), ("packet", "", "packets", packets)):
        seen, status = printed("fields --context --top " + top + flags, profile, {}, part, lines)
        shown = trees(seen[:-len(context)])
        if (done, status, seen[-len(context):], len(shown)) != (0, 0, context, len(flow)):
            return False
        for number, ((head, body), header, packet) in enumerate(zip(shown, flow, packets)):
            if head is None or head.group(1, 2, 4) != (what, str(number + 1), packet.split(":")[0]) or not is_aligned(body):
                return False
            if joined(listings, top, head.group(3), body, 2) != (format(int.from_bytes(header, "big"), "0%db" % (8 * len(header))), bits_of(packet)):
                return False
    return True


def large():
    """For each flow of headers whether it is right, and how many headers it has."""
    for kind in headers.TOPS:
        profile = (program.EXAMPLES / "profiles" / (kind + ".profile")).read_text()
        every = headers.headers_of(kind, (program.EXAMPLES / "data" / (kind + "-headers.hex")).read_text().splitlines())
        for place, flow in enumerate(headers.by_flow(every).values()):
            yield "flow %d of %s" % (place, kind), flow_is_right(kind, profile, flow), len(flow)


def main():
    sys.exit(count_calls("fields", "lines and headers", [*small(random.Random(4997)), *large()]))


if __name__ == "__main__":
    main()
