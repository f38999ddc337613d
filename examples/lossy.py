#!/usr/bin/env python3
"""Sends the headers of data/ over a line of frames that loses some, and tells of each flow what comes through.

    lossy.py udp | rtp [N]

The headers go in their order, each on the flow of its addresses and ports, by `line --frames --robust N`; N is 2 where none is given. Of each flow never more than N
frames in a row are lost. Which, is drawn by a fixed seed, so each call prints the same. What `line --frames --receive` then gives is compared with what was sent: the
status is 1 where a header that came through isn't given as it was, in its place. docs/LOSS.md has the law."""
import pathlib
import random
import subprocess
import sys

sys.path.insert(0, str(pathlib.Path(__file__).resolve().parent.parent))
from examples import headers

PROGRAM = headers.HERE.parent / "bin" / "rohcfn"
SEED, SHARE = 4997, 0.3  # of the frames that may be lost, so many are


def answered(kind, words, part, lines):
    """The lines that the program prints."""
    ran = subprocess.run([PROGRAM], input=headers.bundle(kind, words, part, lines), stdout=subprocess.PIPE, text=True, check=True)
    return ran.stdout.splitlines()


def frames(octets):
    """The frames of octets, one after the other. (No reset is among them.)"""
    place = 0
    while place < len(octets):
        first = octets[place + 1]
        start, count = (2, first) if first < 128 else (3, (first - 128) * 256 + octets[place + 2])
        yield octets[place:place + start + count]
        place += start + count


def come(sent, most):
    """The places of the frames that come through: of each flow never more than so many in a row are lost."""
    draw, gaps = random.Random(SEED), {}
    for place, frame in enumerate(sent):
        gap = gaps.get(frame[0], 0)
        gaps[frame[0]] = gap + 1 if gap < most and draw.random() < SHARE else 0
        if gaps[frame[0]] == 0:
            yield place


def main(words):
    kind, most = words[0] if words else "", words[1] if words[1:] else "2"
    if kind not in headers.TOPS or not most.isdecimal() or words[2:]:
        sys.exit(__doc__)
    given = headers.headers_of(kind, (headers.HERE / "data" / (kind + "-headers.hex")).read_text().splitlines())
    octets, *items = answered(kind, "line --frames --robust " + most, "events", headers.events(kind, given))
    sent = list(frames(bytes.fromhex(octets)))
    through = list(come(sent, int(most)))
    seen = answered(kind, "line --frames --receive", "octets", [b"".join(sent[it] for it in through).hex()])
    print("flow  sent  lost  given  right")
    for flow in sorted({it[0] for it in sent}):
        heard = [it for it in seen if it.startswith("%d " % flow)]
        due = [items[it] for it in through if sent[it][0] == flow]
        count = sum(it[0] == flow for it in sent)
        print("%4d  %4d  %4d  %5d  %5d" % (flow, count, count - len(due), len(heard), sum(map(str.__eq__, heard, due))))
    sys.exit(0 if seen == [items[it] for it in through] else 1)


if __name__ == "__main__":
    main(sys.argv[1:])
