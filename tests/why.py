"""Through the built program: what `why` prints of items and packets that are refused. For each format of the top there is a line, in the order of the text. Where it tells a reason, a slow search over
all headers and all values of asked fields (searching.py) finds no filling of that format with the item's header and asked values, or at the front of the packet. The reason's place, encoding, bounds,
reference and bits are those of a second reading (reference/reasons.py), or the reason is one of `lint`. The fault line is that of `pack` or `unpack`. The items and packets are drawn, many of them damaged, or those of the cases in cases/ that are refused, whose profiles normal.py reads."""
import collections
import functools
import itertools
import random
import re
import sys

from . import cases, roundtrip
from .fields import bits_of, printed
from .program import EXAMPLES, lines
from .reference import normal, reasons, samples
from .reference.searching import NoValue, Search, spelled
from .roundtrip import text

LINE = re.compile(r"[1-9]\d*:[1-9]\d*: (?P<blanks> *)(?P<method>\w+)\.(?P<format>\w+|-): (?P<reason>.+)")
DEAD = re.compile(r"(\d+):(\d+): warning (\w+\.(?:\w+|-)): (.*): nothing fits this format")
NOTHING = "nothing simple stands against it"
SAMPLES = ["tick", "opt", "mode", "turn"]
REFUSED = re.compile(r"^(?:item|packet) ([1-9]\d*): (?:F3|U1|U2) ", re.MULTILINE)
MOST = 1 << 16  # headers with values of the asked fields that are searched for a stored case
Filled = collections.namedtuple("Filled", "index header packed entries asked")


class Quick(Search):
    """The slow search, where the compressed side follows from the other one by the encoding alone."""

    def sides(self, form, field, known, path, upper):
        name, *words = field.encoding or ("", "")
        bits = upper[field.name]
        if field.is_called() and field.name not in form.listing:
            inner = [(it, list(values)) for values in self.arguments(field, known) for it in self.inside(words[0], values, path, bits)]
            return iter([("", it) for it in inner if not it[0].packed])
        if field.name not in form.listing or name not in ("irregular", "static", "uncompressed_value", "lsb", "compressed_value") or not all(isinstance(it, int) for it in words):
            return super().sides(form, field, known, path, upper)
        if name == "compressed_value":
            try:
                return iter([(spelled(*words), None)])
            except NoValue:
                return iter([])
        if name == "lsb":
            return iter([(bits[len(bits) - words[0]:], None)] if 0 <= words[0] <= len(bits) else [])
        return iter([(bits if name == "irregular" else "", None)])


class Stored:
    """The profile of a stored case."""

    def __init__(self, profile, words):
        self.profile, self.name, self.version = profile, words[2], 2 if "--v2" in words else 1
        self.methods, self.initial = normal.methods_of(profile, self.name)

    def words(self, command):
        return "%s --top %s%s" % (command, self.name, " --v2" if self.version == 2 else "")


def fillings(subject, context, of_headers=None):
    """All of the top in a context: of every header, or of these, by every value of the asked fields."""
    top = len(subject.methods) - 1
    fields = subject.methods[top].formats[0].fields
    asked = {it.name: ["".join(bits) for bits in itertools.product("01", repeat=it.u[1])] for it in fields if it.asked}
    search = Quick(subject.methods, context, subject.initial)
    for header in of_headers or headers(subject):
        for values in itertools.product(*asked.values()):
            for it in search.fillings(top, (), "", header, dict(zip(asked, values))):
                yield Filled(it.index, it.header, it.packed, it.entries, dict(zip(asked, values)))


def headers(subject):
    """Every header of the greatest length, and one that is a bit short."""
    most = subject.methods[-1].formats[0].most("U")
    return ["".join(it) for it in itertools.product("01", repeat=most)] + ["0" * (most - 1)]


def damaged(packed, draw):
    """Packed bits with one bit turned, cut by a bit, or followed by others."""
    place = draw.randrange(len(packed)) if packed else 0
    turned = packed[:place] + ("1" if packed[place:place + 1] == "0" else "0") + packed[place + 1:]
    return [turned, packed[:-1], turned + "".join(draw.choice("01") for _ in range(9))]


def calls(subject, context, draw, most):
    """Items and packets of one context: the command, its flags, the part, the line, and the formats of which a filling is asked for."""
    known = list(fillings(subject, context))
    asked = [it for it in subject.methods[-1].formats[0].fields if it.asked]
    for header in draw.sample(headers(subject), most) + headers(subject)[-1:]:
        values = {it.name: "".join(draw.choice("01") for _ in range(it.u[1])) for it in asked}
        yield "pack", " --items", "items", roundtrip.line_of(header, values), {it.index for it in known if it.header == header and it.asked == values}
    packets = ["".join(draw.choice("01") for _ in range(draw.randrange(13))) for _ in range(most)]
    for it in draw.sample(known, min(len(known), most)):
        packets += damaged(it.packed, draw)
    for packet in packets:
        yield "unpack", "", "packets", text(packet), {it.index for it in known if packet.startswith(it.packed)}


@functools.lru_cache(None)
def profile_of(text, name, version):
    """The profile as the second reading has it, and the reasons that `lint` gives: the place, the format and the words of each."""
    methods, initial = normal.methods_of(text, name)
    warned, _ = lines("=== words\nlint --top %s\n=== profile\n%s" % (name, text))
    dead = [DEAD.fullmatch(it) for it in warned]
    return reasons.Profile(text, methods, initial), {((int(it[1]), int(it[2])), it[3], it[4]) for it in dead if it}


def reads(subject, context, part, line, told):
    """What is wrong with the reasons by the second reading."""
    profile, dead = profile_of(subject.profile, subject.name, subject.version)
    bits, asked = item_of(line)
    reading = reasons.Reading(profile, context, bits, "U" if part == "items" else "C", asked if part == "items" else {}, dead)
    for it in told:
        reading.line(it)
    return reading.wrong


def reads_inside(subject, context, path, header, told):
    """What is wrong with those of the method that is called at a path, of which a filling has this header."""
    profile, dead = profile_of(subject.profile, subject.name, subject.version)
    reading = reasons.Reading(profile, context, header, "U", {}, dead, path)
    for it in told:
        reading.line(it)
    return reading.wrong


def is_told(subject, lines, there):
    """Whether the lines are those of the formats of the top, of which none that is blamed has a filling; and how many are blamed."""
    found = [LINE.fullmatch(it) for it in lines]
    if not all(found):
        return False, 0
    top = [it for it in found if not it["blanks"] and it["method"] == subject.methods[-1].name]
    names = [it.shown() for it in subject.methods[-1].formats]
    blamed = [it["format"] for it in top if it["reason"] != NOTHING]
    return [it["format"] for it in top] == names and not any(names.index(it) in there for it in blamed), len(blamed)


def trials(subject, context, draw, most):
    """For each call what is wrong with it, if anything, and how many formats were blamed."""
    for command, flags, part, line, there in calls(subject, context, draw, most):
        yield told_or_wrong(subject, context, command, flags, part, line, there)


def told_or_wrong(subject, context, command, flags, part, line, there):
    """What is wrong with one call, if anything, and how many formats were blamed."""
    wrong = []
    refusal, _ = printed(subject.words(command), subject.profile, context, part, [line])
    lines, status = printed(subject.words("why") + flags, subject.profile, context, part, [line])
    if ": F" in refusal[0] or ": U" in refusal[0]:
        right, blamed = is_told(subject, lines[1:], there)
        wrong = reads(subject, context, part, line, lines[1:]) if right else []
        right = right and lines[:1] == refusal and not wrong
    else:
        right, blamed = len(lines) == 1 and bool(there), 0
    return None if right and status == 0 else (subject.profile, context, flags, line, refusal, lines, there, wrong), blamed


def parts_of(bundle):
    """The parts of a bundle, by their names."""
    return {name: body + "\n" for name, _, body in (it.partition("\n") for it in ("\n" + bundle).split("\n=== ")[1:])}


def stored():
    """The stored cases in which an item or a packet is refused: the subject, the words, the context to begin with, the part, and its lines up to that one."""
    for path in sorted(EXAMPLES.glob("cases/*.cases")):
        for _, bundle, _, output in cases.stored(path):
            parts, number = parts_of(bundle.decode("latin-1")), REFUSED.search(output.decode("latin-1"))
            words = parts.get("words", "").split()
            if number and words[:1] in (["pack"], ["unpack"], ["why"], ["fields"]) and "certificate" not in parts:
                part = "items" if "items" in parts else "packets"
                words[0] = "pack" if part == "items" else "unpack"
                yield Stored(parts["profile"], words), words, parts.get("context", ""), part, parts[part].split("\n")[:int(number[1])]


def item_of(line):
    """The header and the asked values of a line of items."""
    bits, *values = line.split(" ")
    return bits_of(bits), {name: bits_of(value) for name, _, value in (it.partition("=") for it in values)}


def reached(subject, words, start, part, lines):
    """The context after the lines, as the program prints it."""
    entries = dict(it.split(" ") for it in start.split("\n") if it)
    if lines:
        shown, _ = printed("%s --top %s --context" % (words[0], words[2]) + (" --v2" if "--v2" in words else ""), subject.profile, {}, part, lines, start)
        entries = dict(it.split(" ") for it in shown[shown.index("=== context") + 1:])
    return {path: bits_of(bits) for path, bits in entries.items()}


def stored_trials():
    """For each of these what is wrong with it, if anything, and how many formats were blamed."""
    known_of = {}
    for subject, words, start, part, lines in stored():
        form, bits, asked = subject.methods[-1].formats[0], *item_of(lines[-1])
        if 1 << (form.most("U") if part == "packets" else 0) + sum(it.u[1] for it in form.fields if it.asked) > MOST:
            continue
        context = reached(subject, words, start, part, lines[:-1])
        key = subject.profile, part == "items" and bits, tuple(context.items())
        if key not in known_of:
            known_of[key] = list(fillings(subject, context, [bits] if part == "items" else None))
        known = known_of[key]
        there = {it.index for it in known if ((bits, asked) == (it.header, it.asked) if part == "items" else bits.startswith(it.packed))}
        yield told_or_wrong(subject, context, words[0], " --items" if part == "items" else "", part, lines[-1], there)


def slips(line):
    """A line of a reason with a slip in one part of it: its place, the format, the field or the encoding, the path, the bits, a number."""
    place, rest = line.split(": ", 1)
    at, column = map(int, place.split(":"))
    yield "line", "%d:%d: %s" % (at + 1, column, rest)
    yield "column", "%d:%d: %s" % (at, column + 1, rest)
    for name, pattern, new in (("encoding", r"\b(?:irregular|static|lsb|crc|uncompressed_value|compressed_value)( of )", r"other\1"), ("field", r"( of )\w+(?=: )", r"\1other"),
                               ("called", r"(nothing goes in )\w+", r"\1other"), ("path", r"(no entry )", r"\1x."), ("least", r"(\d+)( bits are there)", r"1\1\2"), ("due", r"(at (?:least|most) )(\d+)", r"\g<1>1\2"),
                               ("left", r"(\d+)( bits are left)", r"9\1\2"), ("bits", r"( has \d+:)([0-9a-f])", lambda it: it[1] + "%x" % (int(it[2], 16) ^ 15)), ("bits due", r"(, and \d+:)([0-9a-f])", lambda it: it[1] + "%x" % (int(it[2], 16) ^ 15)),
                               ("words", r": ([^:]*)$", ": something stands against it")):
        changed = re.sub(pattern, new, line, count=1)
        if changed != line:
            yield name, changed


def noticed():
    """Slips in the reasons of stored cases: which of them the second reading misses, and how many there are of each kind."""
    missed, count = [], 0
    for subject, words, start, part, given in stored():
        context = reached(subject, words, start, part, given[:-1])
        told, _ = printed(subject.words("why") + (" --items" if part == "items" else ""), subject.profile, context, part, given[-1:])
        for at, line in enumerate(told[1:], 1):
            for name, changed in slips(line) if LINE.fullmatch(line) else ():
                count += 1
                if not reads(subject, context, part, given[-1], [*told[1:at], changed, *told[at + 1:]]):
                    missed.append((name, changed))
    return missed, count


def readings():
    """Whether normal.py reads a sample as its normal form was written by hand: the same fillings in the empty context."""
    for name in SAMPLES:
        by_hand, read = roundtrip.sample(name), Stored(samples.TEXTS[name], ["why", "--top", name])
        same = sorted(map(str, fillings(by_hand, {}))) == sorted(map(str, fillings(read, {})))
        yield None if same else (name, "is read otherwise"), 0


def subjects(draw):
    for name in SAMPLES:
        for context in roundtrip.CONTEXTS[name]:
            yield roundtrip.sample(name), context, 12
    for subject, context in roundtrip.referring(draw):
        yield subject, context, 4


def stored_and_noticed():
    """The same of stored cases; and how many slips in their reasons the second reading notices, where it misses none."""
    of_cases = list(stored_trials())
    missed, slipped = noticed()
    for it in missed:
        print("why: a slip that the second reading misses: %s: %s" % it)
    return of_cases if of_cases and slipped and not missed else [(("no stored case", missed), 0)], slipped - len(missed)


def main(words):
    """Of the stored cases by the word `stored`, of drawn ones by `drawn`, of both without a word."""
    draw = random.Random(4997)
    passed = failed = told = slipped = 0
    every = []
    if words[:1] != ["drawn"]:
        every, slipped = stored_and_noticed()
    if words[:1] != ["stored"]:
        every = itertools.chain(every, readings(), (it for subject, context, most in subjects(draw) for it in trials(subject, context, draw, most)))
    for wrong, blamed in every:
        passed, failed, told = passed + (wrong is None), failed + (wrong is not None), told + blamed
        if wrong is not None and failed < 5:
            print("why:", *wrong)
    print("why%s: %d passed, %d failed; %d formats with a reason, %d slips noticed" % ("".join(" " + it for it in words), passed, failed, told, slipped))
    return 1 if failed or not told else 0


if __name__ == "__main__":
    sys.exit(main(sys.argv[1:]))
