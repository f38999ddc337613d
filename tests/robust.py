"""Packets that survive losses, through the built program: `pack`, `stats`, `loss` and `why` with `--robust N`.

    robust.py            `--robust 0` changes nothing of the stored cases; `pack`, `stats` and `why --items` with `--robust N` against a slow search over what a
                         receiver may hold, on small profiles; and the headers of data/ over a link that loses packets, never more than N in a row: what `unpack`
                         reads of those that come through, in the receiver's own context, is compared with their items
    robust.py --all      the same with 100,000 packets that come through
    robust.py tables     prints the rows of README and docs/LOSS.md: how many bits a header of data/ takes for each N, and what is read after lost packets
"""
import collections
import concurrent.futures
import itertools
import random
import re
import sys

from examples import headers
from . import cases, loss, roundtrip, stats
from .program import EXAMPLES, ROOT, bundle, lines, run
from .reference.reading import Field, Format, Method
from .reference.samples import bracket, enforce, literal

NUMBERS = (0, 1, 3, 8)
PART, ALL = 6_000, 100_000  # packets that come through
SMALL, MANY = 16, 64  # items of a small profile
PAIRS = 256
SHARES = (0.05, 0.2, 0.5, 0.8, 1.0)  # of the packets that may be lost

# Its formats don't call alike: which value of `part` a receiver holds hangs on which packets it heard.
TURNS = """part { UNCOMPRESSED { v [1]; }
  COMPRESSED keep { d =:= '0' [1]; v =:= static [0]; }
  COMPRESSED send { d =:= '1' [1]; v =:= irregular(1) [1]; } }
turns { UNCOMPRESSED { g [2]; a [1]; b [1]; c [1]; }
  COMPRESSED in_a { d =:= '0' [1]; g =:= uncompressed_value(2, 0); a =:= part [1, 2]; b =:= irregular(1) [1]; c =:= irregular(1) [1]; }
  COMPRESSED in_b { d =:= '10' [2]; g =:= uncompressed_value(2, 1); a =:= irregular(1) [1]; b =:= part [1, 2]; c =:= irregular(1) [1]; }
  COMPRESSED in_c { d =:= '11' [2]; g =:= uncompressed_value(2, 2); a =:= irregular(1) [1]; b =:= irregular(1) [1]; c =:= part [1, 2]; } }
"""
HOP = """hop { UNCOMPRESSED { sn [3]; hops [3]; }
  COMPRESSED same { d =:= '0' [1]; sn =:= lsb(1, 0) [1]; hops =:= static [0]; }
  COMPRESSED near { d =:= '10' [2]; sn =:= irregular(3) [3]; hops =:= lsb(1, 1) [1]; }
  COMPRESSED full { d =:= '11' [2]; sn =:= irregular(3) [3]; hops =:= irregular(3) [3]; } }
"""
LOW = """low { UNCOMPRESSED { sn [4]; }
  COMPRESSED near { d =:= '0' [1]; sn =:= lsb(3, 3) [3]; }
  COMPRESSED small { d =:= '1' [1]; ENFORCE(sn.UVALUE < 10); sn =:= irregular(4) [4]; } }
"""
CALL, SENT, KEPT = ("call", 0, []), ("irregular", 1), ("static",)


def turning(own, bits, number):
    """The format of `turns` that calls `part` in a field."""
    encoded = {it: (CALL, 1, 2) if it == own else (SENT, 1) for it in "abc"}
    fields = [Field("g", "header", ("uncompressed_value", 2, number), (2, 2)), *(Field(it, "header", words[0], (1, 1), (1, words[-1])) for it, words in encoded.items()), literal("d", bits)]
    return Format("in_" + own, fields, ["d", "g", "a", "b", "c"], [bracket("g", "U", 2)] + [bracket(it, "U", 1) for it in "abc"] + [bracket("d", "C", len(bits))] + [bracket(it, "C", *words[1:]) for it, words in encoded.items()])


def hopping(name, bits, sn, hops):
    """A format of `hop`, with the encodings of its fields and the lengths of their compressed sides."""
    fields = [Field("sn", "header", sn[0], (3, 3), (sn[1],) * 2), Field("hops", "header", hops[0], (3, 3), (hops[1],) * 2), literal("d", bits)]
    return Format(name, fields, ["d", "sn", "hops"], [bracket(it, "U", 3) for it in ("sn", "hops")] + [bracket("d", "C", len(bits)), bracket("sn", "C", sn[1]), bracket("hops", "C", hops[1])])


def lower(name, bit, sn, size, more):
    """A format of `low`, with the encoding of its field, the length of that one's compressed side, and conditions."""
    return Format(name, [Field("sn", "header", sn, (4, 4), (size, size)), literal("d", bit)], ["d", "sn"], [bracket("sn", "U", 4), bracket("d", "C", 1), *more, bracket("sn", "C", size)])


def part(name, bit, encoding, size):
    return Format(name, [Field("v", "header", encoding, (1, 1), (size, size)), literal("d", bit)], ["d", "v"], [bracket("v", "U", 1), bracket("d", "C", 1), bracket("v", "C", size)])


def own_subjects():
    parts = Method("part", {}, [part("keep", "0", KEPT, 0), part("send", "1", SENT, 1)])
    tops = Method("turns", {}, [turning("a", "0", 0), turning("b", "10", 1), turning("c", "11", 2)])
    yield roundtrip.Subject("turns", TURNS, [parts, tops], {}, 1)
    whole = ("irregular", 3), 3
    formats = [hopping("same", "0", (("lsb", 1, 0), 1), (KEPT, 0)), hopping("near", "10", whole, (("lsb", 1, 1), 1)), hopping("full", "11", whole, whole)]
    yield roundtrip.Subject("hop", HOP, [Method("hop", {}, formats)], {}, 1)
    low = [lower("near", "0", ("lsb", 3, 3), 3, []), lower("small", "1", ("irregular", 4), 4, [enforce("<", ("sn", "UVALUE"), 10)])]
    yield roundtrip.Subject("low", LOW, [Method("low", {}, low)], {}, 1)


# ---- with none lost


def without_loss():
    """For each stored case of `pack`, `stats`, `loss` and `why --items` that is no usage fault whether it prints the same with `--robust 0`.

    `why --not` is left out: it doesn't take `--robust`.
    """
    def tried(case):
        name, text, status, output = case
        return name, run(text) == (output.decode(), status)

    found = []
    for name, text, status, output in cases.cases():
        for command in (b"pack", b"stats", b"loss", b"why"):
            head = b"=== words\n" + command + b" "
            words = text.partition(head)[2].partition(b"\n")[0].split()
            sends = command != b"why" or b"--items" in words and not any(it.startswith(b"--not") for it in words)
            if text.count(head) == 1 and status != 2 and sends and not any(it.startswith(b"--robust") for it in words):
                found.append((name, text.replace(head, head + b"--robust 0 "), status, output))
    with concurrent.futures.ThreadPoolExecutor(max_workers=4) as pool:
        return list(pool.map(tried, found))


# ---- against a slow search


class Holding:
    """What a receiver may hold: pairs of a gap and a context. Two contexts are one where they are equal maps."""

    def __init__(self, subject, start, lost):
        self.subject, self.lost, self.known = subject, lost, {}
        self.own, self.pairs = dict(start), {(0, self.frozen(start))}

    @staticmethod
    def frozen(context):
        return frozenset(context.items())

    def fillings(self, context, header, asked):
        """Those that fit in a context, the best one first, by what tells them apart."""
        key = context, header, frozenset(asked.items())
        if key not in self.known:
            self.known[key] = {shape(it): it for it in self.subject.fillings(dict(context), header, asked)}
        return self.known[key]

    def pack(self, header, asked):
        """The filling, or the fault."""
        own = self.fillings(self.frozen(self.own), header, asked)
        others = [self.fillings(context, header, asked) for _, context in self.pairs]
        reaching = [it for key, it in own.items() if all(key in other for other in others)]
        if not reaching:
            return None, "F5 NoReach" if own else "F3 NoFormat"
        after = {(0, self.frozen({**dict(context), **dict(reaching[0].entries)})) for _, context in self.pairs} | {(gap + 1, context) for gap, context in self.pairs if gap < self.lost}
        if len(after) > PAIRS:
            return None, "F6 Contexts"
        self.pairs = after
        self.own.update(reaching[0].entries)
        return reaching[0], None


    def lacks(self, header, asked):
        """For each format with a filling that fits in the own context, the best one first, the lines of which one tells why that best one doesn't do."""
        told = {}
        for key, filling in self.fillings(self.frozen(self.own), header, asked).items():
            if filling.index not in told:
                bad = [(gap, context) for gap, context in self.pairs if key not in self.fillings(context, header, asked)]
                least = min(gap for gap, _ in bad)
                told[filling.index] = {lacking(self.subject, filling, gap, dict(context)) for gap, context in bad if gap == least}
        return list(told.values())


def uses(subject, method, filling, prefix=""):
    """The fields that a filling encodes by `static` or `lsb`, those of a filling inside in the place of their field."""
    for field in subject.methods[method].formats[filling.index].fields:
        path = prefix + field.name
        if field.library() in ("static", "lsb"):
            initial = None if field.part == "local" else subject.initial.get(field.name)
            yield loss.Use(path, field.library(), [filling.level.value(it) for it in field.encoding[1:]], filling.level.sides[field.name][0], initial)
        elif field.is_called() and field.name in filling.inner:
            yield from uses(subject, field.encoding[1], filling.inner[field.name], path + ".")


def lacking(subject, filling, gap, context):
    """The line of a filling that doesn't fit in a context after so many lost packets."""
    top = len(subject.methods) - 1
    given = [(it, context.get(it.path, it.initial)) for it in uses(subject, top, filling)]
    use, reference = next(it for it in given if not loss.serves(*it))
    place = next(number for number, line in enumerate(subject.profile.splitlines(), 1) if re.match(subject.name + r"\b", line))
    format_name = subject.methods[top].formats[filling.index].shown()
    return "%d:1: %s.%s: lost %d: %s" % (place, subject.name, format_name, gap, loss.told(use, reference).strip())


def shape(filling):
    """What tells a filling from others: the formats and the sides of all fields."""
    return filling.index, tuple(sorted(filling.level.sides.items())), tuple(sorted((name, shape(it)) for name, it in filling.inner.items()))


def printed(subject, words, start, items):
    entries = "".join("%s %s\n" % (path, roundtrip.text(bits)) for path, bits in start.items())
    return lines(bundle(subject.words(words), subject.profile, context=entries, items="".join(it + "\n" for it in items)))


def wanted(subject, draw, count):
    """Items of a small profile: many are the one before, or one of a few."""
    every, found = roundtrip.items(subject, draw), []
    for _ in range(count):
        found.append(draw.choice([*found[-1:], draw.choice(every[:6]), draw.choice(every)]))
    return found


def is_explained(subject, lost, start, items, lacks):
    """Whether `why` tells of the last item, which is refused, what stands against it, and of the others their formats."""
    seen, status = printed(subject, "why --items --robust %d" % lost, start, items)
    heads, rest = seen[:len(items) - 1], seen[len(items):]
    if status or not all(it.startswith("item %d " % number) for number, it in enumerate(heads, 1)):
        return False
    return lacks is None or len(rest) == len(lacks) and all(it in due for it, due in zip(rest, lacks))


def searched(subject, start, lost, draw, count=SMALL):
    """Whether `pack` and `stats` with `--robust` print what the search finds, how many items they were given, and which faults were found."""
    holding, kept, packets, faults, counted = Holding(subject, start, lost), [], [], [], []
    well = True
    for number, (header, asked) in enumerate(wanted(subject, draw, count), 1):
        line = roundtrip.line_of(header, asked)
        found, fault = holding.pack(header, asked)
        if fault:
            if len(faults) < 3:
                due = [*packets, "item %d: %s" % (len(kept) + 1, fault)], 1
                well = well and printed(subject, "pack --robust %d --context" % lost, start, [*kept, line]) == due
                well = well and is_explained(subject, lost, start, [*kept, line], holding.lacks(header, asked) if fault == "F5 NoReach" else None)
            faults.append("item %d: %s" % (number, fault))
        else:
            kept.append(line)
            packets.append(roundtrip.text(found.packed))
        counted.append(line)
    due = [*packets, "=== context", *("%s %s" % (path, roundtrip.text(bits)) for path, bits in holding.own.items())], 0
    well = well and printed(subject, "pack --context --robust=%d" % lost, start, kept) == due
    bits = sum(int(it.partition(":")[0]) for it in packets)
    seen, status = printed(subject, "stats --robust %d" % lost, start, counted)
    told = ["items %d bits %d mean %s" % (len(kept), bits, stats.mean(bits, len(kept))), *faults]
    well = well and status == 0 and seen[:1] + [it for it in seen if it.startswith("item ")] == told
    return well, 2 * len(counted), faults


def against_search():
    """For each small profile whether what is printed is what the search finds. Those in which some item has a filling serve."""
    draw = random.Random(5795)
    subjects = [(roundtrip.sample(name), start) for name, starts in roundtrip.CONTEXTS.items() for start in starts]
    subjects += [(it, {}) for it in own_subjects()] + list(roundtrip.referring(draw))[::4]
    for subject, start in subjects:
        for lost in (1,) if subject.name == "opt" else (0, 1, 3):
            yield "%s from %s, %d lost" % (subject.profile, start, lost), searched(subject, start, lost, draw)
    yield TURNS, searched(next(own_subjects()), {}, 63, draw, MANY)


# ---- headers over a link


Flow = collections.namedtuple("Flow", "kind items packets")  # packets by N


def answer(kind, words, part, given):
    return lines(headers.bundle(kind, words, part, given))[0]


def flows():
    """The flows of data/ with their packets for each N."""
    for kind in headers.TOPS:
        every = headers.headers_of(kind, (EXAMPLES / "data" / (kind + "-headers.hex")).read_text().splitlines())
        for flow in headers.by_flow(every).values():
            items = list(headers.items(kind, flow))
            yield Flow(kind, items, {lost: answer(kind, "pack --robust %d" % lost, "items", items) for lost in NUMBERS})


def come_through(count, lost, share, draw):
    """The places of the packets that come through: a packet may be lost where fewer than so many were right before."""
    gap, found = 0, []
    for place in range(count):
        if gap < lost and draw.random() < share:
            gap += 1
        else:
            found.append(place)
            gap = 0
    return found


def arrive(flow, lost, places):
    """How many packets that come through aren't read as their items."""
    read = answer(flow.kind, "unpack", "packets", [flow.packets[lost][it] for it in places])
    due = ["%s took %s" % (flow.items[it], flow.packets[lost][it].partition(":")[0]) for it in places]
    return len(due) - sum(seen == it for seen, it in zip(read, due))


def over_link(every, count):
    """How many packets came through, how many were lost, and how many were read wrong or refused."""
    draw, asked, came, gone = random.Random(63), [], 0, 0
    for turn in itertools.count():
        flow, lost, share = every[turn % len(every)], NUMBERS[turn // len(every) % len(NUMBERS)], draw.choice(SHARES)
        places = come_through(len(flow.items), lost, share, draw)
        asked.append((flow, lost, places))
        came, gone = came + len(places), gone + len(flow.items) - len(places)
        if came >= count and turn + 1 >= len(every) * len(NUMBERS):
            break
    with concurrent.futures.ThreadPoolExecutor(max_workers=4) as pool:
        return came, gone, sum(pool.map(lambda it: arrive(*it), asked))


def figures(every):
    """The rows of the tables of README and docs/LOSS.md: for each N how many bits a header of udp and of rtp takes."""
    for lost in NUMBERS:
        means = []
        for kind in headers.TOPS:
            sizes = [int(it.partition(":")[0]) for flow in every if flow.kind == kind for it in flow.packets[lost]]
            means.append(stats.mean(sum(sizes), len(sizes)))
        yield "| %d | %s |\n" % (lost, " | ".join(means))


def lost_rows(kind, every):
    """The rows of the table of docs/LOSS.md: for each number of packets lost in a row how many packets of all flows come after them, and how many are right, refused and wrong for each N."""
    tables = {}
    for lost in NUMBERS:
        sums = collections.Counter()
        for flow in every:
            if flow.kind == kind:
                for row in answer(kind, "loss --lost %d --robust %d" % (NUMBERS[-1] + 1, lost), "items", flow.items)[2:NUMBERS[-1] + 4]:
                    count, *cells = map(int, row.split())
                    sums.update({(count, place): it for place, it in enumerate(cells)})
        tables[lost] = sums
    for count in range(NUMBERS[-1] + 2):
        cells = ["%d, %d, %d" % tuple(tables[lost][count, place] for place in (1, 2, 3)) for lost in NUMBERS]
        yield "| %d | %d | %s |\n" % (count, tables[0][count, 0], " | ".join(cells))


def main(words):
    every = list(flows())
    if words == ["tables"]:
        print("".join([*figures(every), *lost_rows("udp", every), *lost_rows("rtp", every)]), end="")
        return 0
    wrong = ["%s flow of %d headers: %d lost: a header is refused" % (it.kind, len(it.items), lost) for it in every for lost in NUMBERS if len(it.packets[lost]) != len(it.items) or "item" in it.packets[lost][-1]]
    same = without_loss()
    wrong += ["%s: --robust 0 prints something else" % name for name, is_right in same if not is_right]
    found = list(against_search())
    wrong += ["the search finds something else: " + name for name, (is_right, *_) in found if not is_right]
    came, gone, bad = over_link(every, ALL if words == ["--all"] else PART)
    wrong += ["%d packets that came through were not read as their items" % bad] if bad else []
    rows = list(figures(every))
    for page, due in (("README.md", rows), ("docs/LOSS.md", [*rows, *lost_rows("udp", every), *lost_rows("rtp", every)])):
        text = (ROOT / page).read_text()
        wrong += ["%s lacks %s" % (page, it.strip()) for it in due if it not in text]
    for it in wrong:
        print("robust: " + it)
    faults = collections.Counter(it.partition(": ")[2] for _, (_, _, faults) in found for it in faults)
    print("robust: %d cases with --robust 0, %d items against a search (%s), %d packets came through and %d were lost, %d wrong"
          % (len(same), sum(count for _, (_, count, _) in found), ", ".join("%s %d" % it for it in sorted(faults.items())), came, gone, len(wrong)))
    return 1 if wrong or not same or not found else 0


if __name__ == "__main__":
    sys.exit(main(sys.argv[1:]))
