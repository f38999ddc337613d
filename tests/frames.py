"""Through the built program: `line --frames`, on a link that loses whole frames, and on damaged octets.

The headers of data/ go over one line of six flows, mixed, with resets drawn at random. The frames of each flow must be those of `pack --robust N` between its resets.
Frames are lost, of each flow never more than N in a row; what `line --frames --receive` then gives must be the items of those that come through, in order. Where more
are lost of one flow, the other flows must give what they gave. Of small lines each octet is damaged, and each prefix is tried: frames are cut by a reading of their
own, and a flow whose frames all came whole, and no others with them, must give what it gave before."""
import contextlib
import io
import random
import sys

from examples import headers, lossy
from .program import DOCS, EXAMPLES, bundle, built, run
from .reference.samples import TICK

LOST = (0, 1, 3)
SHARE = 0.3  # of the frames that may be lost
RESETS = 40  # one event of so many
FLOWS = 6


def cut(octets):
    """The frames of octets, each with its flow; then what is left, and whether no frame begins there."""
    found, place = [], 0
    while place < len(octets):
        first, start = octets[place], place
        if first & 0x40:
            return found, octets[place:], True
        place += 1
        if first < 0x40:
            if place == len(octets) or (octets[place] >= 0x80 and place + 1 == len(octets)):
                return found, octets[start:], False
            count, place = (octets[place], place + 1) if octets[place] < 0x80 else ((octets[place] - 0x80) * 256 + octets[place + 1], place + 2)
            if place + count > len(octets):
                return found, octets[start:], False
            place += count
        found.append((first & 0x3f, octets[start:place]))
    return found, b"", False


def frame(flow, packet):
    """The frame of a packet that is the text of its bits."""
    octets = bytes.fromhex(packet.partition(":")[2])
    count = len(octets)
    return bytes([flow]) + (bytes([count]) if count < 128 else bytes([0x80 + count // 256, count % 256])) + octets


class Mixed:
    """Six flows of headers of a kind on one line, with resets."""

    def __init__(self, kind, draw):
        self.kind = kind
        every = headers.headers_of(kind, (EXAMPLES / "data" / (kind + "-headers.hex")).read_text().splitlines())
        self.flows = [list(headers.items(kind, it)) for it in list(headers.by_flow(every).values())[:FLOWS]]
        while len(self.flows) < FLOWS:  # (fewer flows of this kind: the later part of one is another)
            longest = max(self.flows, key=len)
            half = len(longest) // 2
            self.flows.append(longest[half:])
            del longest[half:]
        waiting, self.events = [list(it) for it in self.flows], []
        while any(waiting):
            flow = draw.choice([it for it in range(FLOWS) if waiting[it]])
            self.events.append((flow, None if draw.randrange(RESETS) == 0 else waiting[flow].pop(0)))

    def call(self, words, part, lines):
        printed, status = run(headers.bundle(self.kind, words, part, lines))
        return printed.splitlines(), status

    def sent(self, lost, flow=None):
        """What `line` prints of all events, or of those of a flow."""
        return self.call("line --frames --robust %d" % lost, "events", ["reset %d" % it if item is None else "send %d %s" % (it, item) for it, item in self.events if flow in (None, it)])

    def received(self, frames):
        return self.call("line --frames --receive", "octets", [b"".join(octets for _, octets in frames).hex()])

    def packed(self, lost, flow):
        """The frames of a flow, from its first event to its first reset, by `pack`."""
        items = []
        for it, item in self.events:
            if it == flow:
                if item is None:
                    break
                items.append(item)
        return [frame(flow, it) for it in self.call("pack --robust %d" % lost, "items", items)[0]] if items else []


def checks_of(mixed, lost, draw):
    """Each check of a line and whether it passes."""
    printed, status = mixed.sent(lost)
    frames, rest, bad = cut(bytes.fromhex(printed[0]))
    yield "all is sent", (status, rest, bad, len(frames)) == (0, b"", False, len(mixed.events))
    yield "each frame is of its event's flow", [it[0] for it in frames] == [it[0] for it in mixed.events]
    due = ["%d %s" % it for it in mixed.events if it[1] is not None]
    yield "the items are those that were sent", printed[1:] == due
    yield "all is received", mixed.received(frames) == (due, 0)
    for flow in range(FLOWS):
        own = [octets for it, octets in frames if it == flow]
        alone = mixed.sent(lost, flow)
        yield "flow %d alone has the same frames" % flow, alone[1] == 0 and alone[0][0] == b"".join(own).hex()
        packed = mixed.packed(lost, flow)
        yield "flow %d has the packets of pack" % flow, own[:len(packed)] == packed
    gaps, came = [0] * FLOWS, []
    for place, (flow, _) in enumerate(frames):
        if gaps[flow] < lost and draw.random() < SHARE:
            gaps[flow] += 1
        else:
            gaps[flow] = 0
            came.append(place)
    due = ["%d %s" % mixed.events[it] for it in came if mixed.events[it][1] is not None]
    yield "what comes through is right", mixed.received([frames[it] for it in came]) == (due, 0)
    for flow in range(FLOWS):
        kept = [it for it in came if mixed.events[it][0] != flow or draw.random() < 0.5]
        seen, status = mixed.received([frames[it] for it in kept])
        others = [it for it in seen if not it.startswith("%d " % flow)]
        yield "flow %d harms itself alone" % flow, (status, others) == (0, [it for it in due if not it.startswith("%d " % flow)])


def small(words, octets):
    return run(bundle("line --top tick --frames" + words, TICK, octets=octets.hex() + "\n"))


def damaged():
    """Each prefix and each damaged octet of a small line: what is given of a flow is what its frames give alone."""
    events = "".join("send %d 8:%02x\n" % (flow, (value + 7 * flow) % 256) for value in range(1, 6) for flow in (0, 1, 63)) + "reset 1\nsend 1 8:20\n"
    printed, _ = run(bundle("line --top tick --frames", TICK, events=events))
    octets = bytes.fromhex(printed.splitlines()[0])
    tried = [octets[:it] for it in range(len(octets))]
    tried += [octets[:place] + bytes([octets[place] ^ flip]) + octets[place + 1:] for place in range(len(octets)) for flip in (1, 2, 4, 8, 16, 32, 64, 128, 255)]
    known = {}
    for them in tried:
        frames, rest, bad = cut(them)
        seen, status = small(" --receive", them)
        fault = "line: L1 bad flow octet" if bad else "line: L4 ended inside a packet" if rest else None
        yield status == (1 if fault else 0) and (fault is None or seen.splitlines()[-1] == fault)
        lines = seen.splitlines()[:-1] if fault else seen.splitlines()
        for flow in {it[0] for it in frames}:
            own = b"".join(octets for it, octets in frames if it == flow)
            if own not in known:
                known[own] = small(" --receive", own)
            yield known[own] == ("".join(it + "\n" for it in lines if it.startswith("%d " % flow)), 0)


def shown():
    """Whether examples/lossy.py finds each header that came through, and prints what docs/LOSS.md shows."""
    lossy.PROGRAM, printed = built(), io.StringIO()
    for kind in headers.TOPS:
        with contextlib.redirect_stdout(printed if kind == "udp" else io.StringIO()):
            try:
                lossy.main([kind])
            except SystemExit as end:
                yield end.code == 0
    yield "```\n$ examples/lossy.py udp\n%s```\n" % printed.getvalue() in (DOCS / "LOSS.md").read_text()


def main():
    draw, passed, failed = random.Random(2307), 0, 0
    for kind in headers.TOPS:
        mixed = Mixed(kind, draw)
        for lost in LOST:
            for name, is_right in checks_of(mixed, lost, draw):
                passed += is_right
                if not is_right:
                    failed += 1
                    print("%s, N = %d: %s: wrong" % (kind, lost, name))
    every = [*damaged(), *shown()]
    if not all(every):
        print("damaged octets, and examples/lossy.py: %d wrong" % every.count(False))
    passed, failed = passed + every.count(True), failed + every.count(False)
    print("frames: %d passed, %d failed" % (passed, failed))
    sys.exit(1 if failed else 0)


main()
