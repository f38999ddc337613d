"""What trees cost in instructions, by callgrind, on the built program or on another that is given as an argument; beside it those of a second one, if that is given.

A packet of `unpack` in a bushy tree of up to 4,096 nodes may cost at most twice one in a tree of 63. Each test of a long way may cost at most 75 instructions beyond the packet in a tree of 63: over
offsets that rise one by one, and by tests so far apart that a table takes one alone. `check` of a big profile (check.py) may cost at most 1.1 times that of the second program, and a packet of `six` (packing.py) no more than by
it. Without a bound: `check` of these trees, and of one whose tables would go beyond the limit of entries."""
import random
import sys

from .check import whole
from .instructions import counted, FEW, MANY, of_run
from .measure import PROGRAM, report
from .packing import line_of

PROFILE = "wide { UNCOMPRESSED { x [64]; y [64]; } COMPRESSED { x =:= irregular(64) [64]; y =:= irregular(64) [64]; } }\n"
READ = "length x C method;length y C method;take x;take y;library x up;library y up"
WRITE = "length x U method;length y U method;take x;take y;library x down;library y down"


def bushy(depth, offset=0):
    """All bits from an offset on, one after the other."""
    return ["bit %d" % offset] + 2 * bushy(depth - 1, offset + 1) if depth else ["leaf -"]


def long(offsets):
    """One way over all the offsets, by one bits, down to depth 128; beside it small trees."""
    nodes = []
    for place, offset in enumerate(offsets):
        nodes += ["bit %d" % offset] + bushy(min(4, 126 - place), min(offset + 1, 120))
    return nodes + ["leaf -"]


def paired(depth, offset=0):
    """Tests seven apart, each two of which take a table of 256 entries."""
    return ["bit %d" % offset, *paired(depth - 1, offset + 8), "bit %d" % (offset + 7), *paired(depth - 1, offset + 8), "leaf -"] if depth else ["leaf -"]


OFFSETS = 127
# each with the nodes and whether the packets are all one bits
TREES = {
    "63 nodes": (bushy(5), False),
    "4,095 nodes": (bushy(11), False),
    "63 nodes, one bits": (bushy(5), True),
    "a way of 127 offsets": (long(range(OFFSETS)), True),
    "a way of 127 offsets 63 or 64 apart": (long([place // 2 + 64 * (place % 2) for place in range(OFFSETS)]), True),
}


def bundle(words, nodes, part=""):
    certificate = ["rohcfn-certificate 1", "method wide", *nodes, "format -", "read", *READ.split(";"), "write", *WRITE.split(";"), "end"]
    return ("=== words\n%s --top wide\n=== profile\n%s=== certificate\n%s%s" % (words, PROFILE, "".join(it + "\n" for it in certificate), part)).encode()


def packet_of(program, nodes, are_ones):
    """What a packet costs: that of many less that of few."""
    def cost(count):
        chance = random.Random("trees")
        lines = [line_of("1" * 128 if are_ones else format(chance.getrandbits(128), "0128b")) for _ in range(count)]
        return of_run(program, bundle("unpack --context", nodes, "=== packets\n" + "".join(it + "\n" for it in lines)), "".join(it + " took 128\n" for it in lines).encode())
    return (cost(MANY) - cost(FEW)) // (MANY - FEW)


def checked_of(program, nodes):
    return of_run(program, bundle("check", nodes), b"accepted\n")


def main():
    programs = sys.argv[1:3] or [PROGRAM]
    print("| what | nodes | instructions |%s" % (" of the second | ratio |" if programs[1:] else ""))
    print("|---|---|---|%s" % ("---|---|" if programs[1:] else ""))

    def row(what, nodes, cost):
        costs = [cost(it) for it in programs]
        cells = ["{:,}".format(it) for it in costs] + ["%.2f" % (costs[0] / it) for it in costs[1:]]
        print("| %s | %s | %s |" % (what, nodes, " | ".join(cells)), flush=True)
        return costs

    packets = {name: row("a packet, " + name, len(nodes), lambda it: packet_of(it, nodes, are_ones))[0] for name, (nodes, are_ones) in TREES.items()}
    six = row("a packet of `six`", 127, lambda it: (counted(it, "unpack", "six", MANY) - counted(it, "unpack", "six", FEW)) // (MANY - FEW))
    big = whole(120, 8, 6)
    costs = row("check of a big profile", "", lambda it: of_run(it, big[1], big[3]))
    for name, nodes in [*[(it, TREES[it][0]) for it in ("63 nodes", "4,095 nodes", "a way of 127 offsets")], ("the limit of entries", paired(9))]:
        row("check, " + name, len(nodes), lambda it: checked_of(it, nodes))
    ratio = packets["4,095 nodes"] / packets["63 nodes"]
    rising, apart = [(packets[name] - packets["63 nodes, one bits"]) / OFFSETS for name in list(TREES)[3:]]
    print("a packet in the bushy tree over one in a tree of 63 nodes, at most 2: %.2f" % ratio)
    print("instructions for a test of a way, at most 75: over rising offsets %.1f, by tests far apart %.1f" % (rising, apart))
    report("trees", ratio <= 2 and max(rising, apart) <= 75 and costs[0] <= 1.1 * costs[-1] and six[0] <= six[-1])


if __name__ == "__main__":
    main()
