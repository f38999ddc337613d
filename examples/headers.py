#!/usr/bin/env python3
"""Turns lines of header octets in hexadecimal into bundles for the program, and what it prints back into such lines.

    headers.py KIND line < HEX           the bundle for `line`: all headers, a flow for each pair of addresses and ports
    headers.py KIND receive < PRINTED    the bundle for `line --receive`, from what `line` printed
    headers.py KIND pack FLOW < HEX      the bundle for `pack --context`: the headers of one flow, from 0 in the order in which flows begin
    headers.py KIND unpack < PRINTED     the bundle for `unpack --context`, from what `pack` printed
    headers.py KIND back < PRINTED       the headers, from what `line --receive` or `unpack` printed

KIND is `udp` (IPv4 and UDP, 28 octets) or `rtp` (IPv4, UDP and RTP, 40 octets); the profiles stand in profiles/. Each header is given its asked
values: a sequence number, which counts the headers of a UDP flow and is RTP's own; what the identification does in its flow; whether there is a
UDP checksum; and for RTP the stride of the timestamps, which is the greatest common divisor of their steps in the flow."""
import functools
import itertools
import math
import pathlib
import sys

HERE = pathlib.Path(__file__).parent
TOPS = {"udp": "udp_ip", "rtp": "rtp_udp_ip"}
OCTETS = {"udp": 28, "rtp": 40}
FLOWS = 16
SEQUENTIAL, SWAPPED, RANDOM, ZERO = range(4)
STEP = 256  # identifications that go on by less than this count


def number(header, start, end):
    """The number of some octets."""
    return int.from_bytes(header[start:end], "big")


def flow_of(header):
    """The octets of the addresses and ports."""
    return header[12:24]


def headers_of(kind, lines):
    """The headers of lines of hexadecimal digits."""
    found = [bytes.fromhex(it) for it in lines if it.strip()]
    for place, header in enumerate(found):
        if len(header) != OCTETS[kind]:
            sys.exit("header %d has %d octets, not %d" % (place + 1, len(header), OCTETS[kind]))
    return found


def by_flow(headers):
    """The headers by their addresses and ports, in the order in which these first stand."""
    flows = {}
    for header in headers:
        flows.setdefault(flow_of(header), []).append(header)
    if len(flows) > FLOWS:
        sys.exit("%d flows, and a line has %d" % (len(flows), FLOWS))
    return flows


def behaviour(numbers):
    """What the identifications of a flow do."""
    def counts(them):
        return all((after - before) % 2**16 < STEP for before, after in zip(them, them[1:]))
    if not any(numbers):
        return ZERO
    if counts(numbers):
        return SEQUENTIAL
    return SWAPPED if counts([it % 256 * 256 + it // 256 for it in numbers]) else RANDOM


def stride(times):
    """The greatest common divisor of the steps, forward or back, of a flow's timestamps; 1 where they are all one."""
    steps = [(after - before) % 2**32 for before, after in zip(times, times[1:])]
    return functools.reduce(math.gcd, [min(it, 2**32 - it) for it in steps], 0) or 1


def text(bits, value):
    """A number as the text of so many bits."""
    octets = (bits + 7) // 8
    return "%d:%0*x" % (bits, 2 * octets, value << 8 * octets - bits)


def items(kind, flow):
    """The items of a flow's headers."""
    steps = behaviour([number(it, 4, 6) for it in flow])
    times = stride([number(it, 32, 36) for it in flow]) if kind == "rtp" else None
    for place, header in enumerate(flow):
        counted = number(header, 30, 32) if kind == "rtp" else place % 2**16
        asked = [("msn", 16, counted), ("ip_id_behaviour", 2, steps), ("udp_checksum_used", 1, int(number(header, 26, 28) != 0))]
        asked += [("ts_stride", 32, times)] if kind == "rtp" else []
        yield " ".join([text(8 * len(header), number(header, 0, len(header)))] + ["%s=%s" % (name, text(bits, it)) for name, bits, it in asked])


def bundle(kind, words, part, lines):
    """A bundle with the profile of the kind."""
    profile = (HERE / "profiles" / (kind + ".profile")).read_text()
    return "=== words\n%s --top %s\n=== profile\n%s=== %s\n%s" % (words, TOPS[kind], profile, part, "".join(it + "\n" for it in lines))


def events(kind, headers):
    """An event for each header: it is sent on its flow."""
    flows = by_flow(headers)
    numbers = {key: place for place, key in enumerate(flows)}
    waiting = {key: items(kind, flow) for key, flow in flows.items()}
    return ["send %d %s" % (numbers[flow_of(it)], next(waiting[flow_of(it)])) for it in headers]


def before_context(lines):
    """The lines up to the context."""
    return list(itertools.takewhile(lambda it: it != "=== context", lines))


def octets_of(line):
    """The header's octets of a line with an item, which may have a flow before it."""
    return bytes.fromhex(next(it for it in line.split(" ") if ":" in it).split(":")[1])


def answered(kind, command, lines, rest):
    """What is printed for a command on lines."""
    if command == "line":
        return bundle(kind, "line", "events", events(kind, headers_of(kind, lines)))
    if command == "receive":
        return bundle(kind, "line --receive", "octets", lines[:1])
    if command == "pack":
        flows = list(by_flow(headers_of(kind, lines)).values())
        return bundle(kind, "pack --context", "items", items(kind, flows[int(rest[0])]))
    if command == "unpack":
        return bundle(kind, "unpack --context", "packets", before_context(lines))
    return "".join(octets_of(it).hex() + "\n" for it in before_context(lines))


def main(words):
    counts = {"line": 2, "receive": 2, "pack": 3, "unpack": 2, "back": 2}
    if len(words) < 2 or words[0] not in TOPS or counts.get(words[1]) != len(words):
        sys.exit(__doc__)
    print(answered(words[0], words[1], sys.stdin.read().splitlines(), words[2:]), end="")


if __name__ == "__main__":
    main(sys.argv[1:])
