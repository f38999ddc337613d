"""Through the built program: what `advise` prints, against a reckoning from what `fields` prints of the same items one by one, each in the context that those before left, and from what `pack` prints of
those that are refused. The reckoning follows docs/FORMATS.md. The items are those of small profiles, some of them damaged, the headers of data/, and counters that go on by drawn steps."""
import collections
import random
import sys

from examples import headers
from front import notation
from . import fields, roundtrip, stats
from .counting import count_calls
from .program import EXAMPLES

SHARES = (90, 99, 100)
LONG = stats.LONG

# a profile of counters of some lengths, one of which has a length that differs from item to item
COUNTERS = """pair
{
  UNCOMPRESSED { high [36]; low [36]; }
  COMPRESSED { high =:= irregular(36) [36]; low =:= irregular(36) [36]; }
}

count
{
  UNCOMPRESSED { wide [64]; long [1]; word [16]; left [long.UVALUE * 3 + 2]; bit [1]; two [72]; }
  COMPRESSED near
  {
    d =:= '0' [1]; wide =:= lsb(W, 2^3 - 1) [W]; word =:= lsb(8, 16) [8]; long =:= static [0]; left =:= lsb(2, 0) [2]; bit =:= irregular(1) [1]; two =:= pair [72];
  }
  COMPRESSED far
  {
    d =:= '1' [1]; wide =:= irregular(64) [64]; long =:= irregular(1) [1]; word =:= irregular(16) [16];
    left =:= irregular(long.UVALUE * 3 + 2) [long.UVALUE * 3 + 2]; bit =:= irregular(1) [1]; two =:= pair [72];
  }
}
W = 12;
"""


# ---- what is counted


def step(earlier, later):
    """How far a value lies from an earlier one, modulo 2^n for n bits: from -2^(n-1) on and below 2^(n-1); none where they differ in length or have more than 64 bits."""
    n = len(later)
    if len(earlier) != n or n > 64:
        return None
    ahead = (int(later or "0", 2) - int(earlier or "0", 2)) % 2 ** n
    return ahead if 2 * ahead < 2 ** n else ahead - 2 ** n


def steps(values, reach):
    """The steps to each value from each of so many before it: how often each comes, and how many pairs have none."""
    found = [step(values[at], later) for place, later in enumerate(values) for at in range(max(0, place - reach), place)]
    return collections.Counter(it for it in found if it is not None), found.count(None)


def taken(counts, bits, offset):
    """How many of the steps `lsb` takes."""
    return sum(count for it, count in counts.items() if -offset <= it <= 2 ** bits - offset - 1)


def taken_around(counts, most, bits, offset):
    """How many of the steps between values of so many bits `lsb` takes, modulo 2^n for these n bits."""
    return sum(count for it, count in counts.items() if (it + offset) % 2 ** most < 2 ** bits)


def least(counts, share):
    """The arguments with the fewest bits by which so many percent of the steps are taken: of those that take the most the offset 0, else the greatest that begins with a step that came."""
    for bits in range(65):
        starts = [0] + sorted(counts)
        best = max(taken(counts, bits, -it) for it in starts)
        if 100 * best >= share * sum(counts.values()):
            return bits, -next(it for it in starts if taken(counts, bits, -it) == best)
    return None


# ---- the words


def percent(part, whole):
    return "%d %%" % (100 * part // whole)


def lsb(arguments):
    return "lsb(%d, %d)" % arguments


def best(counts, most, share):
    """The cell of the least `lsb`: where it sends all bits of the longest value, `irregular`."""
    found = least(counts, share) if counts else None
    return "-" if found is None else lsb(found) if found[0] < most else "irregular"


def goes_by_steps(values):
    """Whether nine pairs in ten have a step, and 90 percent of the steps are taken by an `lsb` with half of the bits of the longest value."""
    counts, without = steps(values, 1)
    whole = sum(counts.values())
    return bool(whole) and 10 * whole >= 9 * (whole + without) and least(counts, 90)[0] <= max(map(len, values)) // 2


def is_few(values):
    return 1 < len(set(values)) <= 8 and 2 * len(set(values)) < len(values)


def what(values):
    counts, without = steps(values, 1)
    kinds = collections.Counter(values)
    if len(kinds) == 1:
        return "constant " + roundtrip.text(values[0])
    if is_few(values):
        told = ", ".join("%s in %d" % (roundtrip.text(value), kinds[value]) for value in dict.fromkeys(values))
        return "%d values: %s" % (len(kinds), told) + ("; as before in " + percent(counts[0], sum(counts.values())) if counts else "")
    if not goes_by_steps(values):
        return "random"
    often = max(counts.values())
    most = min(it for it, count in counts.items() if count == often)
    told = "step %d" % most if len(counts) == 1 else "steps %d to %d, %d in %s" % (min(counts), max(counts), most, percent(often, sum(counts.values())))
    return told + (", none in %d" % without if without else "")


def lengths(values):
    low, high = min(map(len, values)), max(map(len, values))
    return str(low) if low == high else "%d to %d" % (low, high)


def number(tokens, constants):
    """The value of an expression that has one by the text alone."""
    try:
        return eval("".join(it.text for it in tokens).replace("^", "**").replace("/", "//"), {}, constants)  # pylint: disable=eval-used
    except (NameError, AttributeError, SyntaxError):
        return None


def nears(profile, top):
    """For each format of the top in the order of the text its name, and of each field with `lsb` the arguments, or None where the text alone doesn't give them."""
    methods, named = notation.methods_and_constants(notation.tokens_of(profile))
    constants, found = {}, []
    for _ in named:
        constants.update({name: number(tokens, constants) for name, tokens in named if number(tokens, constants) is not None})
    body = next(it for it in methods if it.name == top).body
    for place, token in enumerate(body):
        if token.text == "COMPRESSED":
            begin = notation.after_mark(body, place, "{")
            mine = {}
            for statement in notation.split(body[begin:notation.after_brackets(body, begin - 1) - 1], ";"):
                if len(statement) > 2 and statement[2].text == "lsb":
                    inner = notation.split(statement[4:notation.after_brackets(statement, 3) - 1], ",")
                    both = tuple(number(it, constants) for it in inner)
                    mine[statement[0].text] = both if None not in both else None
            found.append((body[place + 1].text if body[place + 1].text != "{" else "-", mine))
    return found


def table(rows):
    """The lines of a table, of one with more than its heads."""
    if len(rows) < 2:
        return []
    widths = [max(len(row[column]) for row in rows if column < len(row)) for column in range(len(rows[0]))]
    return ["  " + "  ".join(cell.ljust(width) for cell, width in zip(row, widths)).rstrip() for row in rows]


def advised(profile, top, trees, lost):
    """The lines that the trees of `fields` give."""
    levels = [fields.level(body, 2) for _, body in trees]
    shared = [(name, part) for name, part, *_ in levels[0] if part != "local"]
    values = {name: [next(it[2] for it in level if it[0] == name) for level in levels] for name, _ in shared}
    first = [("field", "part", "bits", "what")] + [(name, part, lengths(values[name]), what(values[name])) for name, part in shared]
    second, third = [("field", "lost", *("%d %%" % it for it in SHARES))], [("field", "format", "lsb", "lost 0", *(["lost %d" % lost] if lost else []))]
    formats, reaches = nears(profile, top), [0, lost] if lost else [0]
    for name, _ in shared:
        counted, most = [steps(values[name], it + 1)[0] for it in reaches], max(map(len, values[name]))
        if any(name in mine for _, mine in formats) or len(set(values[name])) > 1 and not is_few(values[name]) and goes_by_steps(values[name]):
            second += [(name, str(it), *(best(counts, most, share) for share in SHARES)) for it, counts in zip(reaches, counted)]
        for form, mine in formats:
            if name in mine:
                shares = [percent(taken_around(counts, min(most, 64), *mine[name]), sum(counts.values())) if counts else "-" for counts in counted] if mine[name] else []
                third.append((name, form, lsb(mine[name]) if mine[name] else "by the item", *shares))
    return ["items %d lost %d" % (len(trees), lost), *table(first), *table(second), *table(third)]


# ---- calls


def call(profile, words, top, items, entries, lost):
    """Whether a run prints what is due."""
    trees, refused = stats.alone(words, profile, entries, items)
    seen, status = fields.printed(words % "advise" + " --lost %d" % lost, profile, {}, "items", items, entries)
    if not trees:
        return seen[:1] == ["items 0 lost %d" % lost] and seen[len(seen) - len(refused):] == refused and status == 0
    return (seen, status) == (advised(profile, top, trees, lost) + refused, 0)


def small(draw):
    """For each run on a small profile whether it prints what is due, and how many items it has."""
    subjects = [(roundtrip.sample(name), start) for name, contexts in roundtrip.CONTEXTS.items() for start in contexts]
    for subject, start in [*subjects, *list(roundtrip.referring(draw))[::3]]:
        items = [roundtrip.line_of(*it) for it in roundtrip.items(subject, draw)[:stats.MOST]]
        items = [stats.damaged(draw, it) if draw.randrange(5) == 0 else it for it in items]
        entries = "".join("%s %s\n" % (path, roundtrip.text(bits)) for path, bits in start.items())
        lost = draw.choice([0, 1, 2, 8])
        yield "%s from %s" % (subject.profile, start), call(subject.profile, subject.words("%s"), subject.name, items, entries, lost), len(items)


def counters(draw):
    """For each run of counters whether it prints what is due, and how many items it has. Their steps are drawn, near 0 or of any size."""
    for turn in range(12):
        wide, word, left, items = draw.randrange(2 ** 64), draw.randrange(2 ** 16), 0, []
        kinds, pace = [format(draw.randrange(2 ** 72), "072b") for _ in range(draw.choice([1, 2, 3, 9]))], draw.choice([1, 160])
        for _ in range(draw.choice([1, 2, 5, 40])):
            wide = (wide + draw.choice([pace, pace, pace, -pace, draw.randrange(2 ** 64)])) % 2 ** 64
            word = (word + draw.choice([0, 1, 1, 2, 3 * pace])) % 2 ** 16
            left, long = (left + 1) % 4, draw.randrange(12) == 0 if turn % 2 else 0
            bits = format(wide, "064b") + str(int(long)) + format(word, "016b") + format(left, "05b" if long else "02b") + draw.choice("0001") + draw.choice(kinds)
            items.append(roundtrip.text(bits))
        yield "counters %d" % turn, call(COUNTERS, "%s --top count", "count", items, "", draw.choice([0, 3, 63])), len(items)


def large(draw):
    """For each flow of headers whether it is right, and how many headers it has."""
    for name, profile, top, items, mixed, refused in stats.mixed_flows(draw):
        lost = draw.choice([0, 2, 8])
        listed, _ = fields.printed("fields --items --top " + top, profile, {}, "items", items)
        seen = fields.printed("advise --top %s --lost %d" % (top, lost), profile, {}, "items", mixed)
        yield name, seen == (advised(profile, top, fields.trees(listed), lost) + refused, 0), len(items)


def main():
    draw = random.Random(4997)
    sys.exit(count_calls("advise", "items", [*small(draw), *counters(draw), *large(draw)]))


if __name__ == "__main__":
    main()
