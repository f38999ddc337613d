"""Growth of `line` and `line --receive` over the packets of 16 flows, and of 64 on the wide line, on the built program, and what a packet costs the receiver by its octets, since it tries after each. What is printed is computed here, by the
layout of the two formats of tick."""

from tests.reference.samples import TICK as PROFILE
from .measure import best_of, grows, report

SIZES = [3750, 7500, 15000, 30000, 60000]
FLOWS, WIDE = 16, 64  # of the line, and of the wide one


def crc3(octet):
    """The register of 3 bits after an octet, its lowest bit first."""
    register = 7
    for place in range(8):
        register = (register >> 1) ^ (6 if (register ^ (octet >> place)) & 1 else 0)
    return register


def packet(header, reference):
    """The octets of a header: one where it lies from one below the reference on to 14 above it, else two."""
    if reference is not None and (header - reference + 1) % 256 < 16:
        return bytes([(header % 16) << 3 | crc3(header)])
    return bytes([0x80 | header >> 1, (header & 1) << 7])


def flows_of(command):
    return WIDE if "--wide" in command else FLOWS


def run_of(flows, count):
    """Events, octets and the items' lines of so many packets: a flow's headers rise by 0 to 19, so that both formats come, and each 50th event is a reset."""
    references, events, octets, items = [None] * flows, [], bytearray(), []
    for i in range(count):
        flow = i * 7 % flows
        if i % 50 == 49:
            references[flow] = None
            events.append("reset %d\n" % flow)
            octets.append(flows + flow)
            continue
        header = ((references[flow] or 0) + i * 40503 // 256 % 20) % 256
        events.append("send %d 8:%02x\n" % (flow, header))
        octets.append(flow)
        octets += packet(header, references[flow])
        items.append("%d 8:%02x\n" % (flow, header))
        references[flow] = header
    return "".join(events), octets.hex() + "\n", "".join(items)


def bundle(command, count):
    events, octets, _ = run_of(flows_of(command), count)
    part, text = ("octets", octets) if "--receive" in command else ("events", events)
    return ("=== words\n%s --top tick\n=== profile\n%s=== %s\n%s" % (command, PROFILE, part, text)).encode()


def expected(command, count):
    _, octets, items = run_of(flows_of(command), count)
    return (items if "--receive" in command else octets + items).encode()


def cases(command):
    for count in SIZES:
        data = bundle(command, count)
        yield count, data, 0, expected(command, count), len(data)


def long_packets(fields):
    """Input, output and octets of 200 packets of so many fields of 64 bits, which are sent as they are."""
    names = ["f%d" % i for i in range(fields)]
    header, listed = "".join("%s [64]; " % it for it in names), "".join("%s =:= irregular(64) [64]; " % it for it in names)
    packets = [bytes((i * 37 + j * 11) % 256 for j in range(8 * fields)) for i in range(200)]
    octets = "".join("%02x%s\n" % (i % FLOWS, it.hex()) for i, it in enumerate(packets))
    data = "=== words\nline --receive --top long\n=== profile\nlong { UNCOMPRESSED { %s} COMPRESSED { %s} }\n=== octets\n%s" % (header, listed, octets)
    output = "".join("%d %d:%s\n" % (i % FLOWS, 64 * fields, it.hex()) for i, it in enumerate(packets))
    return data.encode(), output.encode(), 200 * 8 * fields


def tries():
    print("| octets of a packet | ms for 200 packets | ns an octet |")
    print("|---|---|---|")
    for fields in (1, 2, 4, 8, 16, 32, 64):
        data, output, octets = long_packets(fields)
        best, _ = best_of(data, 0, output)
        print("| %d | %.1f | %.1f |" % (8 * fields, best * 1e3, best * 1e9 / octets))


def main():
    tries()
    print()
    print("| command | events | input octets | ms | ns an event | peak MiB | octets beyond 32 MiB an octet |")
    print("|---|---|---|---|---|---|---|")
    report("line", all([grows(command, cases(command), 64) for command in ("line", "line --receive", "line --wide", "line --wide --receive")]))


if __name__ == "__main__":
    main()
