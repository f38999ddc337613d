"""Growth of `loss` over the items of one flow, on the built program, and what it takes beside `pack` and `unpack` of the same trace. What is printed is computed here, by the layout of tick: a counter that
goes on by one has one format after the first packet, and each packet is within the window of its `lsb` after up to 13 lost ones."""

from tests.reference.samples import TICK as PROFILE
from .line import packet
from .measure import best_of, grows, report

SIZES = [1250, 2500, 5000, 10000, 20000]
LOST = 8


def bundle(words, part, lines):
    return ("=== words\n%s --top tick\n=== profile\n%s=== %s\n%s" % (words, PROFILE, part, "".join(lines))).encode()


def items(count):
    return ["8:%02x\n" % (i % 256) for i in range(count)]


def packets(count):
    """The packets of the items: one of nine bits, and then of eight."""
    return ["9:%s\n" % packet(0, None).hex()] + ["8:%s\n" % packet(i % 256, (i - 1) % 256).hex() for i in range(1, count)]


def set_out(rows):
    widths = [max(map(len, column)) for column in zip(*rows)]
    return "".join("".join("  " + cell.ljust(width) for cell, width in zip(row, widths)).rstrip() + "\n" for row in rows)


def told(count):
    """What `loss` prints: after n lost packets the first that counts is that of the number n + 2."""
    read = [count] + [count - lost - 1 for lost in range(1, LOST + 1)]
    rows = [("lost", "packets", "right", "refused", "wrong")] + [(str(lost), str(it), str(it), "0", "0") for lost, it in enumerate(read)]
    all_after = str(sum(read[1:]))
    formats = [("format", "packets", "right", "refused", "wrong", "reach"), ("short", all_after, all_after, "0", "0", str(LOST))]
    return ("items %d bits %d mean 8.0\n" % (count, 8 * count + 1) + set_out(rows) + set_out(formats)).encode()


def cases():
    for count in SIZES:
        data = bundle("loss --lost %d" % LOST, "items", items(count))
        yield count, data, 0, told(count), len(data)


def beside():
    """What it takes beside 1.3 times `pack` and nine times `unpack` of the largest trace."""
    count = SIZES[-1]
    packed, _ = best_of(bundle("pack", "items", items(count)), 0, "".join(packets(count)).encode())
    lines = "".join("8:%02x took %d\n" % (i % 256, 9 if i == 0 else 8) for i in range(count))
    read, _ = best_of(bundle("unpack", "packets", packets(count)), 0, lines.encode())
    lost, _ = best_of(bundle("loss --lost %d" % LOST, "items", items(count)), 0, told(count))
    ratio = lost / (1.3 * packed + (LOST + 1) * read)
    print("\n%d items: pack %.1f ms, unpack %.1f ms, loss %.1f ms, which is %.2f of 1.3 times the first and %d times the second" % (count, packed * 1e3, read * 1e3, lost * 1e3, ratio, LOST + 1))
    return ratio <= 1


def main():
    print("| command | items | input octets | ms | ns an item | peak MiB | octets beyond 32 MiB an octet |")
    print("|---|---|---|---|---|---|---|")
    report("loss", all([grows("loss", cases(), 64), beside()]))


if __name__ == "__main__":
    main()
