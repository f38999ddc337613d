"""Through the built program: packets by forged certificates, those that a slip of one line (certificates.py) changed and left valid.

What is packed must be the best filling that a slow search over all fillings finds (searching.py), and it must come back with other bits after it. The best one
is the same by each of these certificates: at most one field of a format is chosen and at most one called, and the call waits for what is chosen, so the order
of the candidates is the same. By those of `tick` each header is packed from the first reference, from the last, and without one."""
import functools
import random
import sys

from .certificates import changed
from .program import run
from .reference import reading
from .reference.samples import CERTIFICATES, NORMAL, TOPS
from .roundtrip import CONTEXTS, answered, line_of, sample, shown, text, trials

TICK = sample("tick")
HEADERS = [format(it, "08b") for it in range(256)]

# so many headers of `tick` are packed and read alone by each certificate, the next ones by the next
ALONE = 8


def accepted(name):
    """The certificates of a profile that a slip leaves valid, by the second reading."""
    for what, certificate in changed(CERTIFICATES[name]):
        if certificate != CERTIFICATES[name] and reading.answer(NORMAL[name], TOPS[name], certificate)[1] == 0:
            yield what, certificate


@functools.cache
def best(reference, header):
    """The packed bits of the best filling of `tick` with this header."""
    context = {"sn": reference} if reference is not None else {}
    return TICK.fillings(context, header, {})[0].packed


def both_ways(reference, headers):
    """The headers packed one after the other, and read back with seven one bits after each packet."""
    start = {"sn": reference} if reference is not None else {}
    packets = [best(*it) for it in zip([reference] + headers, headers)]
    lines, end = [line_of(it, {}) for it in headers], {"sn": headers[-1]}
    yield "pack", start, "items", lines, (shown([text(it) for it in packets], end), 0)
    back = ["%s took %d" % (line, len(it)) for line, it in zip(lines, packets)]
    yield "unpack", start, "packets", [text(it + "1111111") for it in packets], (shown(back, end), 0)


@functools.cache
def from_each(reference):
    """Each header from this reference: after each comes the one that brings the reference back."""
    return list(both_ways(reference, [it for header in HEADERS for it in (header, reference)]))


@functools.cache
def lines():
    """Each header on a line of one flow, without a reference: a reset comes before each. The events, the octets and the items."""
    events = "".join("reset 0\nsend 0 %s\n" % line_of(it, {}) for it in HEADERS)
    octets = "".join("1000" + text(best(None, it)).split(":")[1] for it in HEADERS)
    return events, octets + "\n", "".join("0 %s\n" % line_of(it, {}) for it in HEADERS)


def on_a_line(certificate):
    """Whether the line and its receiver give what is due."""
    events, octets, items = lines()
    head = "=== words\nline%s --top tick\n=== profile\n%s=== certificate\n%s\n=== %s\n%s"
    for flag, part, given, due in [("", "events", events, octets + items), (" --receive", "octets", octets, items)]:
        bundle = head % (flag, TICK.profile, certificate, part, given)
        yield run(bundle) == (due, 0)


def by_tick():
    """What was run, and whether it was right."""
    for place, (what, certificate) in enumerate(accepted("tick")):
        alone = [HEADERS[(place * ALONE + more) % 256] for more in range(ALONE)]
        runs = from_each("0" * 8) + from_each("1" * 8) + [it for header in alone for it in both_ways(None, [header])]
        for command, start, part, given, due in runs:
            yield "%s by tick %s" % (command, what), answered(command, TICK, start, part, given, certificate) == due
        for is_right in on_a_line(certificate):
            yield "a line by tick %s" % what, is_right


def by_others():
    """The same of `opt` and `seq`, with some items in contexts that go from line to line."""
    for name, most in (("opt", 16), ("seq", 160)):
        subject, draw = sample(name), random.Random(4998)
        runs = [it for start in CONTEXTS[name] for it in trials(subject, start, draw, 3, most)]
        for what, certificate in accepted(name):
            for command, start, part, given, due in runs:
                yield "%s by %s %s" % (command, name, what), answered(command, subject, start, part, given, certificate) == due


def main():
    passed = failed = 0
    for what, is_right in [*by_tick(), *by_others()]:
        passed += is_right
        failed += not is_right
        if not is_right:
            print("%s: wrong" % what)
    print("forged certificates: %d passed, %d failed" % (passed, failed))
    return 1 if failed or not passed else 0


if __name__ == "__main__":
    sys.exit(main())
