"""What losses do to a trace, reckoned apart from the command `loss`: the program packs the items, and reads each packet in the context that its sender had before the packets that are lost. Which references
don't serve is told by a walk over the profile's text and what `fields` prints.

    loss.py                              checks itself, and the command `loss` where the program has it: the cases of cases/loss.cases; that a packet is read right just where each reference serves, on
                                         small profiles and on the headers of data/; that these are never read wrong; and that docs/LOSS.md and README.md have their tables
    loss.py PROFILE ITEMS [N [TOP]]      prints what `loss --lost N` is to print of a file of items
    loss.py flows KIND [N [PROFILE]]     prints the same of each flow of data/ by itself, and a table of all flows
"""
import collections
import concurrent.futures
import pathlib
import random
import re
import sys

from examples import headers
from . import cases, fields, program, roundtrip, stats
from .reference import normal
from .reference.searching import Level, number

METHOD = re.compile(r"^(\w+)(?:\(.*\))?$", re.MULTILINE)
REFUSED = re.compile(r"item (\d+): ")
VERDICTS = ("right", "refused", "wrong")
LOST = 8
READ = {}  # what `unpack` made of packets so far, by the profile, the context, the item and the packet
SMALL, FEW = 24, 4  # items of a small profile, and lost packets

# a field that a filling encodes by `static` or `lsb`: its path, the method, the values of its arguments, its uncompressed side and its value of INITIAL
Use = collections.namedtuple("Use", "path method values side initial")
# a packet: the format of the top, the item, the bits, the filling's entries and its uses
Sent = collections.namedtuple("Sent", "format item packet entries uses")
# what a receiver makes of a packet: the verdict and the fault's text
Reading = collections.namedtuple("Reading", "verdict fault")


class Profile:
    """The text of a profile, with its methods as normal.py reads them."""

    def __init__(self, text, top=None, version=1):
        self.text, self.top = text, top or METHOD.findall(text)[-1]
        self.words = " --top %s%s" % (self.top, " --v2" if version == 2 else "")
        read = normal.Text(text)
        self.parameters = {it.name: it.parameters for it in read.methods}
        self.formats, self.initial = {}, {}
        for it in read.methods:
            forms, self.initial[it.name] = normal.formats(read, it)
            self.formats[it.name] = {form.shown(): form for form in forms}

    def answer(self, command, context, part, lines):
        """The lines that the program prints, and its status."""
        return fields.printed(command + self.words, self.text, context, part, lines)


# ---- what is sent


def walk(profile, method, form, arguments, lines, prefix, depth):
    """The entries and the uses of a filling, by its lines."""
    found, read = fields.level(lines, depth), profile.formats[method][form]
    level = Level(read, {name: (upper, lower) for name, _, upper, lower, _, _ in found}, arguments)
    entries, uses = [], []
    for name, part, upper, _, encoded, inside in found:
        path, encoding = prefix + name, read.by_name[name].encoding
        entries += [(path, upper)] if part != "local" else []
        if encoded in ("static", "lsb"):
            uses.append(Use(path, encoded, [level.value(it) for it in encoding[1:]], upper, profile.initial[method].get(name)))
        elif "." in encoded:
            callee, inner = encoded.split(".")
            given = dict(zip(profile.parameters[callee], [level.value(it) for it in encoding[2]]))
            more = walk(profile, callee, inner, given, inside, path + ".", depth + 2)
            entries, uses = entries + more[0], uses + more[1]
    return entries, uses


def sent(profile, items, context):
    """The packets of the items, one after the other, and the line of one that is refused."""
    listed, _ = profile.answer("fields --items", context, "items", items)
    refused = [it for it in listed[-1:] if not it.startswith(" ") and fields.HEAD.fullmatch(it) is None]
    packed, _ = profile.answer("pack", context, "items", items)
    found = []
    for (head, body), packet, item in zip(fields.trees(listed[:len(listed) - len(refused)]), packed, items):
        found.append(Sent(head.group(3), item, packet, *walk(profile, profile.top, head.group(3), {}, body, "", 2)))
    return found, refused


def contexts(packets, context):
    """The context before the first packet, and that after each."""
    found = [dict(context)]
    for it in packets:
        found.append({**found[-1], **dict(it.entries)})
    return found


# ---- what is read


def read(profile, context, packet):
    """What `unpack` makes of a packet in a context."""
    (line,), status = profile.answer("unpack", context, "packets", [packet.packet])
    if status:
        return Reading("refused", line.partition(": ")[2])
    return Reading("right" if line.rpartition(" took ")[0] == packet.item else "wrong", None)


def all_read(profile, asked):
    """What `unpack` makes of packets, each in a context of its own. (Receivers that begin with other losses often come to the same context.)"""
    keys = [(profile.words, profile.text, frozenset(context.items()), packet.item, packet.packet) for context, packet in asked]
    new = {key: it for key, it in zip(keys, asked) if key not in READ}
    with concurrent.futures.ThreadPoolExecutor(max_workers=4) as pool:
        READ.update(zip(new, pool.map(lambda it: read(profile, *it), new.values())))
    return [READ[it] for it in keys]


def serves(use, given):
    """Whether a use holds with a reference."""
    if given is None or len(given) != len(use.side):
        return False
    if use.method == "static":
        return given == use.side
    count, offset = use.values
    return 0 <= count <= len(given) and (number(use.side) - number(given) + offset) % (1 << len(given)) < 1 << count


def missed(packet, context):
    """The uses of a packet that don't serve in a context, each with what it is given."""
    found = [(it, context.get(it.path, it.initial)) for it in packet.uses]
    return [it for it in found if not serves(*it)]


def told(use, given):
    """The line of a use that doesn't serve."""
    name = "static" if use.method == "static" else "lsb(%d, %d)" % tuple(use.values)
    line = "  %s %s has %s needs %s" % (use.path, name, "nothing" if given is None else roundtrip.text(given), roundtrip.text(use.side))
    if use.method == "static" or given is None or len(given) != len(use.side):
        return line
    (count, offset), half = use.values, 1 << len(given) >> 1
    step = (number(use.side) - number(given) + half) % (1 << len(given)) - half
    return line + ": step %d, takes %d to %d" % (step, -offset, (1 << count) - offset - 1)


class Losses:
    """Of a list of items from a context: what is read where up to so many packets in a row are lost. With `is_short` the program isn't asked of a packet of which all uses serve: it is right."""

    def __init__(self, profile, items, context, most, is_short=False):
        self.profile, self.items, self.context, self.most = profile, items, context, most
        self.packets, self.refused = sent(profile, items, context)
        self.contexts = contexts(self.packets, context)
        wanted = [(lost, place) for lost in range(most + 1) for place in range(lost + bool(lost), len(self.packets))]
        self.readings = {it: Reading("right", None) for it in wanted}
        asked = [it for it in wanted if not is_short or missed(self.packets[it[1]], self.contexts[it[1] - it[0]])]
        self.readings.update(zip(asked, all_read(profile, [(self.contexts[place - lost], self.packets[place]) for lost, place in asked])))

    def of(self, lost):
        """Place and reading of each packet with so many lost before it."""
        return [(place, it) for (count, place), it in self.readings.items() if count == lost]

    def by_lost(self):
        rows = [("lost", "packets", *VERDICTS)]
        for lost in range(self.most + 1):
            rows.append((lost, *counts([it for _, it in self.of(lost)])))
        return rows

    def by_format(self):
        rows = [("format", "packets", *VERDICTS, "reach")]
        for name in self.profile.formats[self.profile.top]:
            found = {lost: [it for place, it in self.of(lost) if self.packets[place].format == name] for lost in range(1, self.most + 1)}
            every = [it for them in found.values() for it in them]
            bad = [lost for lost, them in found.items() if any(it.verdict != "right" for it in them)]
            if every:
                rows.append((name, *counts(every), min(bad, default=self.most + 1) - 1))
        return rows

    def first(self, lost):
        """The lines of the first packet that is wrong, else of the first that is refused."""
        for verdict in ("wrong", "refused"):
            for place, it in self.of(lost):
                if it.verdict == verdict:
                    head = "lost %d item %d %s %s" % (lost, place + 1, self.packets[place].format, verdict)
                    uses = missed(self.packets[place], self.contexts[place - lost])
                    return [head + (" " + it.fault if it.fault else ""), *(told(*use) for use in uses)]
        return []

    def bits(self):
        return [int(it.packet.partition(":")[0]) for it in self.packets]

    def lines(self):
        """What `loss` is to print."""
        total, count = sum(self.bits()), len(self.packets)
        if self.refused:
            return self.refused
        tables = set_out(self.by_lost()) + (set_out(self.by_format()) if self.most else [])
        cases_of = [line for lost in range(self.most + 1) for line in self.first(lost)]
        return ["items %d bits %d mean %s" % (count, total, stats.mean(total, count)), *tables, *cases_of]

    def agrees(self):
        """Whether each packet is right where all of its uses serve, and else is another filling: refused, wrong, or by chance the same item."""
        return all(it.verdict == "right" or missed(self.packets[place], self.contexts[place - lost]) for (lost, place), it in self.readings.items())

    def same(self):
        """How many packets are read as their item by another filling."""
        return sum(it.verdict == "right" and bool(missed(self.packets[place], self.contexts[place - lost])) for (lost, place), it in self.readings.items())

    def is_told(self):
        """Whether the command `loss` prints the same."""
        seen = self.profile.answer("loss --lost %d" % self.most, self.context, "items", self.items)
        return seen == (self.lines(), 1 if self.refused else 0)


def counts(readings):
    return len(readings), *(sum(it.verdict == verdict for it in readings) for verdict in VERDICTS)


def set_out(rows):
    """A table as `stats` sets it."""
    rows = [[str(cell) for cell in row] for row in rows]
    widths = [max(map(len, column)) for column in zip(*rows)]
    return ["  " + "  ".join(cell.ljust(width) for cell, width in zip(row, widths)).rstrip() for row in rows]


# ---- the headers of data/, and those of the comments of profiles


def profile_of(kind):
    return (program.EXAMPLES / "profiles" / (kind + ".profile")).read_text()


def flows(kind, most, text=None, is_short=False):
    """The losses of each flow by itself. The kinds without headers in data/ have one flow, that of the profile's comment."""
    text = text or profile_of(kind)
    if kind not in headers.TOPS:
        items = re.findall(r"^// (\d+:\S*(?: \S+=\S+)*)(?:\n//  )? -> ", profile_of(kind), re.MULTILINE)
        return [Losses(Profile(text), items, {}, most, is_short)]
    every = headers.headers_of(kind, (program.EXAMPLES / "data" / (kind + "-headers.hex")).read_text().splitlines())
    profile = Profile(text, headers.TOPS[kind])
    return [Losses(profile, list(headers.items(kind, flow)), {}, most, is_short) for flow in headers.by_flow(every).values()]


def joined(every):
    """The table of all flows: the sums of their rows."""
    tables = [it.by_lost() for it in every]
    return tables[0][:1] + [(rows[0][0], *map(sum, zip(*(row[1:] for row in rows)))) for rows in zip(*(it[1:] for it in tables))]


def mean_of(every):
    """The bits of a header over all flows."""
    found = [it for losses in every for it in losses.bits()]
    return stats.mean(sum(found), len(found))


def show_flows(kind, most, text=None):
    every = flows(kind, most, text)
    for place, losses in enumerate(every):
        print("flow %d\n%s" % (place, "\n".join(losses.lines())))
    print("all flows: mean %s\n%s" % (mean_of(every), "\n".join(set_out(joined(every)))))


# ---- the check


def parts_of(bundle):
    return dict(it.split("\n", 1) for it in ("\n" + bundle.decode()).split("\n=== ")[1:])


def stored():
    """For each stored case of `loss` whether it is what is reckoned here; cases.py tries the usage faults."""
    path = program.EXAMPLES / "cases" / "loss.cases"
    for name, bundle, status, output in cases.stored(path) if path.exists() else []:
        parts = parts_of(bundle)
        words = parts["words"].split()
        if words[0] != "loss" or status == 2 or not {"profile", "items"} <= set(parts):
            continue
        words = [it for word in words for it in word.split("=")]
        lost = words[words.index("--lost") + 1] if "--lost" in words else str(LOST)
        start = {path: fields.bits_of(bits) for path, bits in (it.split() for it in parts.get("context", "").splitlines())}
        profile = Profile(parts["profile"] + "\n", words[words.index("--top") + 1], 2 if "--v2" in words else 1)
        found = Losses(profile, [it for it in parts["items"].split("\n") if it], start, int(lost))
        due = "".join(it + "\n" for it in found.lines()).encode(), 1 if found.refused else 0
        yield name, (output, status) == due


def drawn():
    """Traces of small profiles: those of samples.py, and drawn ones that refer. Items that are refused are left out."""
    draw = random.Random(4997)
    subjects = [(roundtrip.sample(name), start) for name, starts in roundtrip.CONTEXTS.items() for start in starts]
    for subject, start in [*subjects, *list(roundtrip.referring(draw))[::3]]:
        profile = Profile(subject.profile, subject.name, subject.version)
        items = [roundtrip.line_of(*it) for it in roundtrip.items(subject, draw)][:2 * SMALL]
        items = sorted(items) if draw.random() < 0.5 else items
        counted, _ = profile.answer("stats", start, "items", items)
        refused = {int(it[1]) for it in map(REFUSED.match, counted) if it}
        yield Losses(profile, [it for number, it in enumerate(items, 1) if number not in refused][:SMALL], start, FEW)


def readme_rows(mended):
    """The rows of README's table: after so many lost packets what is right, refused and wrong of the headers of udp and rtp."""
    for udp, rtp in zip(joined(mended["udp"])[1:], joined(mended["rtp"])[1:]):
        yield "| %d | %d, %d, %d | %d, %d, %d |\n" % (udp[0], *udp[2:], *rtp[2:])


def main(words):
    if words[:1] == ["flows"]:
        show_flows(words[1], int(words[2]) if words[2:] else LOST, pathlib.Path(words[3]).read_text() if words[3:] else None)
        return 0
    if words:
        profile = Profile(pathlib.Path(words[0]).read_text(), *words[3:4])
        print("\n".join(Losses(profile, pathlib.Path(words[1]).read_text().splitlines(), {}, int(words[2]) if words[2:] else LOST).lines()))
        return 0
    from . import loss_counts  # (it stands on this module)
    return check(loss_counts)


def check(loss_counts):
    """Prints what is wrong, and how much is right."""
    rows = list(stored())
    wrong = ["case " + name for name, is_right in rows if not is_right]
    every = [("small profile", it) for it in drawn()]
    mended = {kind: flows(kind, LOST) for kind in loss_counts.BEFORE}
    every += [(kind, it) for kind, them in mended.items() for it in them]
    wrong += ["%s: a packet isn't right where each reference serves: %s" % (name, it.items) for name, it in every if not it.agrees()]
    wrong += ["%s: read wrong" % kind for kind, them in mended.items() if any(row[4] for row in joined(them)[1:])]
    wrong += ["%s: the command `loss` differs: %s" % (name, it.items) for name, it in every if not it.is_told()]
    tables = loss_counts.tables(mended)
    page = (program.DOCS / "LOSS.md").read_text()
    wrong += ["docs/LOSS.md lacks\n%s" % it for it in tables if it not in page]
    shown = (program.ROOT / "README.md").read_text()
    wrong += ["README.md lacks %s" % it for it in readme_rows(mended) if it not in shown]
    for it in wrong:
        print("loss: " + it)
    readings = sum(len(it.readings) for _, it in every)
    print("loss: %d cases, %d readings (%d of them the same item by another filling), %d tables of the page, %d wrong"
          % (len(rows), readings, sum(it.same() for _, it in every), len(tables), len(wrong)))
    return 1 if wrong or not readings or not tables else 0


if __name__ == "__main__":
    sys.exit(main(sys.argv[1:]))
