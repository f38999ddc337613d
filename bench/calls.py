"""Growth of `holds` over how deep calls go, on the built program of rows.

Each method calls the next one for its whole header of 4,096 bits, and the last one sends it in fields of 64 bits. A level is judged by its own sides: it copies nothing of what lies
below it, so that one call more takes as long at 16 calls as at 4."""
from .measure import best_of, report, ROWS

DEPTHS = [2, 4, 8, 16]
TIMES = 4000
FIELDS = 64


def profile(depth):
    calls = "".join("m%d { UNCOMPRESSED { x; } COMPRESSED { x =:= m%d; } } " % (i, i + 1) for i in range(depth - 1))
    header = "".join("f%d [64]; " % i for i in range(FIELDS))
    listed = "".join("f%d =:= irregular(64); " % i for i in range(FIELDS))
    return calls + "m%d { UNCOMPRESSED { %s} COMPRESSED { %s} }" % (depth - 1, header, listed)


def filling(depth):
    octets = bytes((i * 37 + 11) % 256 for i in range(8 * FIELDS)).hex()
    whole = "%d:%s" % (64 * FIELDS, octets)
    parts = ["= 0 0" if depth > 1 else ""]
    for _ in range(depth - 2):
        parts += ["x header %s %s" % (whole, whole), "( 0 0"]
    parts += ["x header %s %s" % (whole, whole), "( 0 " + ",".join(str(i) for i in range(FIELDS))]
    for i in range(FIELDS):
        value = "64:" + octets[16 * i : 16 * (i + 1)]
        parts.append("f%d header %s %s" % (i, value, value))
    return " | ".join(parts + [")"] * (depth - 1))


def main():
    print("| calls deep | ms for %d times | us a call more |" % TIMES)
    print("|---|---|---|")
    times = {}
    for depth in DEPTHS:
        data = "profile m0 %s\njudged %d | %s\n" % (profile(depth), TIMES, filling(depth))
        times[depth], _ = best_of(data.encode(), 0, b"\n%d\n" % TIMES, ROWS)
        more = (times[depth] - times[depth // 2]) / (depth - depth // 2) / TIMES if depth // 2 in times else 0
        print("| %d | %.1f | %.2f |" % (depth, times[depth] * 1e3, more * 1e6))
    ratio = (times[16] - times[8]) / 8 / ((times[8] - times[4]) / 4)
    print("| | one call more at 16, over one at 8: %.2f | |" % ratio)
    report("calls", ratio <= 1.25)


main()
