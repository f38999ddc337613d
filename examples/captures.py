#!/usr/bin/env python3
"""Writes headers of data/ as a capture of the format pcap to standard output: captures.py udp|rtp > FILE. Each stands in a frame of Ethernet, with four octets of payload."""
import pathlib
import struct
import sys

ETHERNET, LINK = bytes(12) + b"\x08\x00", 1
PAYLOAD = b"body"


def capture(kind):
    """The octets of the capture."""
    lines = (pathlib.Path(__file__).parent / "data" / (kind + "-headers.hex")).read_text().split()
    frames = [ETHERNET + bytes.fromhex(it) + PAYLOAD for it in lines]
    records = [struct.pack("<IIII", at, 0, len(it), len(it)) + it for at, it in enumerate(frames)]
    return struct.pack("<IHHiIII", 0xA1B2C3D4, 2, 4, 0, 0, 65535, LINK) + b"".join(records)


if __name__ == "__main__":
    if sys.argv[1:] not in (["udp"], ["rtp"]):
        sys.exit(__doc__)
    sys.stdout.buffer.write(capture(sys.argv[1]))
