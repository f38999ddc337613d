"""Items as bare octets: --bare. A line has hexadecimal digits, which may stand in groups, then asked values; `#` begins a comment."""
import re

from . import parts

DIGITS = re.compile(rb"[0-9A-Fa-f]+")
SKIPPED = re.compile(rb"[ \t]*(?:#.*)?\r?")
COMMENT = re.compile(rb"(?:^|[ \t])#.*", re.DOTALL)


class Bare:
    """How lines become items: the header of the top has so many bits, or none that is known; then each digit counts four."""

    def __init__(self, bits):
        self.bits = bits

    def items(self, octets, name, above=0):
        """The items of lines, above which so many stand in a file, or which an option gives. Lines without an item stay empty, so that the numbers of lines stay."""
        return b"\n".join(self.item(it, name, above + at) for at, it in enumerate(octets.split(b"\n"), 1))

    def item(self, line, name, number):
        """The item of a line. One that has a count of bits stays as it is."""
        if SKIPPED.fullmatch(line):
            return b""
        words = COMMENT.sub(b"", line.rstrip(b"\r")).split()
        if b":" in words[0]:
            return b" ".join(words)
        count = next((at for at, it in enumerate(words) if not DIGITS.fullmatch(it)), len(words))
        digits, values = b"".join(words[:count]), words[count:]
        if not digits or any(b"=" not in it for it in values):
            raise parts.BadInput("%s:%d: a bare item has hexadecimal digits, and then values as NAME=BITS" % (name, number), 2)
        bits = 4 * len(digits) if self.bits is None else self.bits
        if len(digits) not in ((bits + 3) // 4, (bits + 7) // 8 * 2):
            raise parts.BadInput("%s:%d: %d digits are %d bits, and the top's header has %d" % (name, number, len(digits), 4 * len(digits), bits), 2)
        return b" ".join([b"%d:%s" % (bits, digits + b"0" * (len(digits) % 2)), *values])
