"""Packs the headers of data/ through the built program, reads them back, compares the octets, and prints how many bits a header of each flow takes on average.

Each flow goes through `pack --context` and `unpack --context`; with the word `line` all flows together also go over `line` and back by `line --receive`, and the
line's octets are compared with those of the same packets. It fails where an octet differs, where the UDP headers take more than they may, and where docs/LOSS.md shows
other numbers."""
import sys

from examples import headers
from . import program

IN_STEP = 33  # bits that a header may take on average in a flow of one length whose identification counts
ALL = 48  # and over all flows


def answer(kind, words, part, lines):
    """The lines that the program prints, and whether it refused nothing."""
    printed, status = program.lines(headers.bundle(kind, words, part, lines))
    return printed, status == 0


def packed(kind, flow):
    """The packets of a flow, where they are read back as its headers and both ends come to one context."""
    sent, done = answer(kind, "pack --context", "items", headers.items(kind, flow))
    packets, context = sent[:len(flow)], sent[len(flow):]
    back, read = answer(kind, "unpack --context", "packets", packets)
    same = [headers.octets_of(it) for it in back[:len(flow)]] == flow and back[len(flow):] == context
    return packets if done and read and same else None


def over_line(kind, every, packets):
    """Whether all headers come back over a line of flows, and its octets are those of the packets, each after that of its flow."""
    sent, done = answer(kind, "line", "events", headers.events(kind, every))
    waiting = [iter(it) for it in packets]
    flows = list(headers.by_flow(every))
    numbers = [flows.index(headers.flow_of(it)) for it in every]
    due = "".join("%02x%s" % (it, next(waiting[it]).split(":")[1]) for it in numbers)
    back, read = answer(kind, "line --receive", "octets", sent[:1])
    return done and read and sent[0] == due and sent[1:] == back and [headers.octets_of(it) for it in back] == every


def name(key):
    """The addresses and ports of a flow."""
    ends = [(key[:4], key[8:10]), (key[4:8], key[10:12])]
    return " to ".join("%s:%d" % (".".join(map(str, address)), int.from_bytes(port, "big")) for address, port in ends)


def in_step(flow):
    """Whether the headers of a flow have one length and their identifications count."""
    return len({headers.number(it, 2, 4) for it in flow}) == 1 and headers.behaviour([headers.number(it, 4, 6) for it in flow]) == headers.SEQUENTIAL


def trial(kind, lined):
    """What is printed of the headers of a kind, and whether all is well with them."""
    every = headers.headers_of(kind, (program.EXAMPLES / "data" / (kind + "-headers.hex")).read_text().splitlines())
    lines, packets, bits, well = ["%s: %d headers of %d octets" % (kind, len(every), headers.OCTETS[kind])], [], 0, True
    for place, (key, flow) in enumerate(headers.by_flow(every).items()):
        packets.append(packed(kind, flow))
        if packets[-1] is None:
            return lines + ["flow %d is not read back" % place], False
        counts = [int(it.split(":")[0]) for it in packets[-1]]
        mean, bits = sum(counts) / len(counts), bits + sum(counts)
        well = well and not (kind == "udp" and in_step(flow) and mean > IN_STEP)
        lines.append("flow %d, %s: %d headers, %.1f bits each" % (place, name(key), len(flow), mean))
    lines.append("all flows: %.1f bits each" % (bits / len(every)))
    well = well and not (kind == "udp" and bits > ALL * len(every))
    return lines, well and (not lined or over_line(kind, every, packets))


def main():
    shown, done = (program.DOCS / "LOSS.md").read_text(), []
    for kind in headers.TOPS:
        lines, well = trial(kind, "line" in sys.argv[1:])
        print("\n".join(lines))
        done.append(well)
        if "\n".join(lines) not in shown:
            print("docs/LOSS.md shows other numbers")
            done.append(False)
    print("headers: %s" % ("all come back" if all(done) else "failed"))
    sys.exit(0 if all(done) else 1)


if __name__ == "__main__":
    main()
