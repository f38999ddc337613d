"""Growth of `prove` over the conjuncts of a method whose formats no test tells apart, on the built program or on another that is given as an argument. Each of 64 formats has all conjuncts, which say the
same of one parameter, or in turn of several. From a quarter of the largest count to the largest the time of one conjunct may grow by a quarter, and the largest may take a second."""
import sys

from . import measure

COUNTS = [960, 3840, 15360]
PLACES = 8  # parameters
SECONDS = 1
REFUSED = b"prove: P2 NoTree m f0 f1\n"


def profile(count, told):
    """The conjuncts stand in ENFORCEs of 120 each; the one of place i says something of the parameter with the number `told(i)`."""
    enforced = ""
    for start in range(0, count, 120):
        enforced += " ENFORCE(%s);" % " && ".join("p%d == %d" % (told(it), told(it)) for it in range(start, min(start + 120, count)))
    names = ", ".join("p%d" % it for it in range(PLACES))
    formats = "".join("  COMPRESSED f%d { x =:= irregular(8) [8]; }\n" % it for it in range(64))
    return "m(%s) {\n  UNCOMPRESSED { x [8]; }\n  CONTROL {%s }\n%s}\nt { UNCOMPRESSED { y [8]; } COMPRESSED { y =:= m(%s); } }\n" % (
        names, enforced, formats, ", ".join(map(str, range(PLACES))))


def main(words):
    program = words[0] if words else measure.PROGRAM
    good = True
    for name, told in (("one parameter", lambda it: 0), ("in turn", lambda it: it % PLACES)):
        per_conjunct = []
        for count in COUNTS:
            data = b"=== words\nprove --top t\n=== profile\n" + profile(count, told).encode()
            best, most = measure.best_of(data, 1, REFUSED, program)
            per_conjunct.append(best / count)
            print("| %s | %d | %d | %.1f | %.1f |" % (name, count, len(data), best * 1000, most / measure.MIB))
        ratio = per_conjunct[-1] / per_conjunct[-2]
        good = good and ratio <= 1.25 and best <= SECONDS
        print("%s: a conjunct at the largest takes %.2f of one at a quarter of it; the largest takes %.2f seconds" % (name, ratio, best))
    return 0 if good else 1


if __name__ == "__main__":
    sys.exit(main(sys.argv[1:]))
