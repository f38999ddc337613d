"""Growth of `pack` and `unpack` over lines, over the fields of a header and over how deep calls go, on the built program.

The lines are of seven profiles: `plain` (two fields), `tick` (a reference, a checksum, two formats), `opt` (a call whose method goes by a flag), `six` (64 formats), `wide` (64 bits), and by certificates of version 2 `mode` (a tree that
tests a reference) and `turn` (a remainder). What is due is worked out here, from the notation's rules."""
import random

from tests.reference.samples import MODE, OPT, TICK, TURN
from .growth import PROFILE as PLAIN
from .measure import best_of, grows, report

SIZES = [2000, 15000, 30000, 60000]
SIX = "six { UNCOMPRESSED { x [6]; }\n%s}\n" % "".join("  COMPRESSED f%d { d =:= '%s' [6]; x =:= uncompressed_value(6, %d); }\n" % (i, format(i, "06b"), i) for i in range(64))
WIDE = "wide { UNCOMPRESSED { x [64]; } COMPRESSED { x =:= irregular(64) [64]; } }\n"
PROFILES = {"plain": PLAIN, "tick": TICK, "opt": OPT, "six": SIX, "wide": WIDE, "mode": MODE, "turn": TURN}
FLAGS = {"mode": " --v2", "turn": " --v2"}
CONTEXTS = {"mode": "=== context\nm 1:80\nx 8:00\n"}

FIELDS = [8, 16, 64]
DEPTHS = [4, 8, 16]
LONG = 4096
LONG_LINES = 600


def line_of(bits):
    if not bits:
        return "0:"
    octets = (len(bits) + 7) // 8
    return "%d:%s" % (len(bits), int(bits.ljust(8 * octets, "0"), 2).to_bytes(octets, "big").hex())


def crc3(value):
    register = 7 ^ value
    for _ in range(8):
        register = (register >> 1) ^ 6 if register & 1 else register >> 1
    return format(register, "03b")


def tick_packet(value, last):
    if last is not None and (value - (last - 1)) % 256 < 16:
        return "0" + format(value % 16, "04b") + crc3(value)
    return "1" + format(value, "08b")


def stream(name, count):
    """Headers and their packets, as bits."""
    chance = random.Random("%s %d" % (name, count))
    last = None
    for _ in range(count):
        if name == "plain":
            header = format(chance.randrange(1 << 16), "016b")
            yield header, "10" + header
        elif name == "six":
            header = format(chance.randrange(64), "06b")
            yield header, header
        elif name == "wide":
            header = format(chance.randrange(1 << 64), "064b")
            yield header, header
        elif name == "mode":
            last = ((last or 0) + chance.randrange(16)) % 256
            yield format(last, "08b"), format(last % 16, "04b")
        elif name == "turn":
            value = chance.randrange(16)
            yield format(value, "04b"), format((value + 5) % 16, "04b")
        else:
            value = chance.randrange(256) if last is None or chance.random() < 0.3 else (last + (name == "tick")) % 256
            header = format(value, "08b")
            yield header, tick_packet(value, last) if name == "tick" else "0" if value == last else "1" + header
            last = value


def bundled(command, top, profile, pairs):
    """The input of a command, and the output that is due."""
    headers = [line_of(header) for header, _ in pairs]
    packets = [line_of(packet) for _, packet in pairs]
    lines = headers if command == "pack" else packets
    part = "items" if command == "pack" else "packets"
    words = "%s --top %s%s" % (command, top, FLAGS.get(top, ""))
    data = "=== words\n%s\n=== profile\n%s%s=== %s\n%s" % (words, profile, CONTEXTS.get(top, ""), part, "".join(it + "\n" for it in lines))
    took = ["%s took %d\n" % (header, len(packet)) for header, (_, packet) in zip(headers, pairs)]
    out = [it + "\n" for it in packets] if command == "pack" else took
    return data.encode(), "".join(out).encode()


def lines_of(command, name):
    for count in SIZES:
        data, out = bundled(command, name, PROFILES[name], list(stream(name, count)))
        yield count, data, 0, out, len(data)


def long_headers(count):
    chance = random.Random("headers of %d bits" % count)
    headers = [format(chance.getrandbits(count), "0%db" % count) for _ in range(LONG_LINES)]
    return [(header, header) for header in headers]


def listed(count):
    fields = "".join("f%d [64]; " % i for i in range(count))
    return "UNCOMPRESSED { %s} COMPRESSED { %s}" % (fields, "".join("f%d =:= irregular(64); " % i for i in range(count)))


def fields_of(command):
    for count in FIELDS:
        data, out = bundled(command, "many", "many { %s }\n" % listed(count), long_headers(64 * count))
        yield count, data, 0, out, len(data)


def calls(command):
    """One call more at 16 calls deep, over one at 8."""
    times = {}
    for depth in DEPTHS:
        above = "".join("m%d { UNCOMPRESSED { x; } COMPRESSED { x =:= m%d; } }\n" % (i, i + 1) for i in range(depth - 1))
        data, out = bundled(command, "m0", "%sm%d { %s }\n" % (above, depth - 1, listed(64)), long_headers(LONG))
        times[depth], _ = best_of(data, 0, out)
        print("| %s, calls | %d | %d | %.1f | | | |" % (command, depth, len(data), times[depth] * 1e3))
    ratio = (times[16] - times[8]) / 8 / ((times[8] - times[4]) / 4)
    print("| %s, calls | | | | one call more at 16, over one at 8: %.2f | | |" % (command, ratio))
    return ratio <= 1.25


def main():
    print("| what | count | input octets | ms | ns for one | peak MiB | octets beyond 32 MiB an octet |")
    print("|---|---|---|---|---|---|---|")
    good = []
    for command in ("pack", "unpack"):
        good += [grows("%s %s, lines" % (command, name), lines_of(command, name), 64) for name in PROFILES]
        good += [grows("%s, fields" % command, fields_of(command), 64), calls(command)]
    report("packing", all(good))


if __name__ == "__main__":
    main()
