"""Through the built program: packs items of small profiles in contexts that go from line to line, and reads each packet back with up to nine bits after it, by certificates of version 1 or of version 2
where there is none of version 1. What is printed is compared with the best filling that a slow search over all fillings finds (searching.py)."""
import functools
import itertools
import random
import sys

from .program import run
from .reference import proving, samples, small
from .reference.searching import Search

INITIAL = {"tick": {}, "opt": {}, "seq": {"msn": "00000000"}, "wrap": {}, "mode": {"m": "0"}, "turn": {}, "nest": {"m": "1"}}
CONTEXTS = {"tick": [{}, {"sn": "00000000"}, {"sn": "11111010"}], "opt": [{}, {"ttl": "01000000", "ttl.field": "01000000"}], "seq": [{}, {"msn": "00000101"}], "wrap": [{}],
            "mode": [{}, {"m": "1", "x": "00101000"}], "turn": [{}], "nest": [{}, {"f.m": "0", "f.s": "011"}, {"f.m": "0" * 65, "f.s": "110"}]}
OF_TWO = ["mode", "turn", "nest"]


class Subject:
    """A profile with its normal form and the values of INITIAL, the version of its certificate, and the plans to write."""

    def __init__(self, name, profile, methods, initial, version):
        self.name, self.profile, self.methods, self.initial, self.version = name, profile, methods, initial, version
        self.plans = [[proving.plan(methods, m, f, "write", version) for f in m.formats] for m in methods]

    def words(self, command):
        return "%s --top %s%s" % (command, self.name, " --v2" if self.version == 2 else "")

    def fillings(self, context, header, asked):
        """Those that fit, the best one first."""
        top = len(self.methods) - 1
        found = Search(self.methods, context, self.initial).fillings(top, (), "", header, asked)
        return sorted(found, key=lambda it: it.code(self.methods, top, self.plans))


def sample(name):
    return Subject(name, samples.TEXTS[name], samples.NORMAL[name], INITIAL[name], 2 if name in OF_TWO else 1)


@functools.lru_cache(None)
def text(bits):
    octets = [bits[start:start + 8].ljust(8, "0") for start in range(0, len(bits), 8)]
    return "%d:%s" % (len(bits), "".join("%02x" % int(it, 2) for it in octets))


def items(subject, draw):
    """Every header, with values of the asked fields, in an order that is drawn; of a small profile a hundred."""
    form = subject.methods[-1].formats[0]
    headers = ["".join(it) for it in itertools.product("01", repeat=form.most("U"))]
    if subject.name == "seq":
        found = [(it, {"msn": format((int(it, 2) // 2 + more) % 256, "08b")}) for it in headers for more in (0, 0, 1, 128)]
    else:
        asked = {it.name: ["".join(bits) for bits in itertools.product("01", repeat=it.u[1])] for it in form.fields if it.asked}
        found = [(it, dict(zip(asked, bits))) for it in headers for bits in itertools.product(*asked.values())]
    draw.shuffle(found)
    return found[:100] if subject.name == "p" else found


def line_of(header, asked):
    return " ".join([text(header)] + ["%s=%s" % (name, text(bits)) for name, bits in asked.items()])


def answered(command, subject, context, part, lines, certificate=None):
    """What the program prints, and its status; without a certificate it makes one."""
    entries = "".join("%s %s\n" % (path, text(bits)) for path, bits in context.items())
    given = "=== certificate\n%s\n" % certificate if certificate is not None else ""
    data = "=== words\n%s\n=== profile\n%s%s=== context\n%s=== %s\n%s" % (subject.words(command + " --context"), subject.profile, given, entries, part, "".join(it + "\n" for it in lines))
    return run(data)


def shown(lines, context):
    return "".join(it + "\n" for it in lines + ["=== context"] + ["%s %s" % (path, text(bits)) for path, bits in context.items()])


def trials(subject, start, draw, alone=40, most=None):
    """Command, context, part, lines and what is due: all items that have a filling, or the first ones, in one run, back again, and each of some others alone."""
    context, fitting, packets, refused = dict(start), [], [], []
    for header, asked in items(subject, draw)[:most]:
        found = subject.fillings(context, header, asked)
        if not found:
            refused.append((dict(context), line_of(header, asked)))
            continue
        fitting.append(line_of(header, asked))
        packets.append(found[0].packed)
        context.update(found[0].entries)
    yield "pack", start, "items", fitting, (shown([text(it) for it in packets], context), 0)
    yield from heard(start, fitting, packets, context, draw)
    for reached, line in refused[:alone]:
        yield "pack", reached, "items", [line], ("item 1: F3 NoFormat\n", 1)


def heard(start, lines, packets, context, draw):
    """The packets with up to nine bits after them, which give the items of the lines."""
    longer = [it + "".join(draw.choice("01") for _ in range(place % 10)) for place, it in enumerate(packets)]
    back = ["%s took %d" % (item, len(it)) for item, it in zip(lines, packets)]
    yield "unpack", start, "packets", [text(it) for it in longer], (shown(back, context), 0)


def others(subject, start, draw):
    """Packets of any filling, which a packer needn't choose, read back."""
    context, lines, packets = dict(start), [], []
    for header, asked in items(subject, draw):
        found = subject.fillings(context, header, asked)
        if found:
            chosen = draw.choice(found)
            lines.append(line_of(header, asked))
            packets.append(chosen.packed)
            context.update(chosen.entries)
    yield from heard(start, lines, packets, context, draw)


def referring(draw):
    """The small profiles that have a certificate of version 2 alone, each with a context: mostly of bits that are drawn, sometimes with a field of more than 64 bits, sometimes empty."""
    for profile, methods, initial in small.referring():
        if proving.answer(methods, 1)[1] and not proving.answer(methods, 2)[1]:
            context = {name: format(draw.randrange(4), "02b") for name in "xyms"}
            context[draw.choice("my")] = draw.choice(["00", "00", "01", "0" * 65])
            yield Subject("p", profile, methods, initial, 2), draw.choice([context, context, context, {}])


def all_trials():
    draw = random.Random(4997)
    for name, contexts in CONTEXTS.items():
        subject = sample(name)
        for start in contexts:
            for it in trials(subject, start, draw, 3 if subject.version == 2 else 40):
                yield subject, *it
    for subject, start in referring(draw):
        for it in [*trials(subject, start, draw, 1), *others(subject, start, draw)]:
            yield subject, *it


def main():
    passed = failed = 0
    for subject, command, context, part, lines, due in all_trials():
        if answered(command, subject, context, part, lines) == due:
            passed += len(lines)
        else:
            failed += 1
            print("%s of %s from %s: wrong" % (command, subject.profile, context))
    print("round trips: %d passed, %d failed" % (passed, failed))
    sys.exit(1 if failed or not passed else 0)


if __name__ == "__main__":
    main()
