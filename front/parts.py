"""The parts of a bundle, read from words and files."""
import os
import re
import stat
import sys

from .terminal import shown

HEADING = re.compile(rb"^=== ", re.MULTILINE)
CONTEXT = re.compile(rb"^=== context\r?\n", re.MULTILINE)
UNHEARD = re.compile(rb"^(?!\d+ \d+:)", re.MULTILINE)  # a line that is no item of a flow, as `line` prints them below the octets
BUNDLE = 4_194_304  # octets of a bundle; where one has more, the program reads one more and says so (I6)
LONGEST = 64 << 20  # octets of a file of which a piece is taken


class BadInput(Exception):
    """What can't be put into a bundle; `status` is that of the call."""

    def __init__(self, text, status):
        super().__init__(text)
        self.status = status


def opened(path):
    """A file, or standard input where it is `-`, to be read."""
    try:
        if path != "-":
            return open(path, "rb")
        if sys.stdin is not None:
            return sys.stdin.buffer
    except OSError as why:
        raise unread(path, why) from None
    raise unread(path)


def unread(path, why=None):
    """What is said of a file that can't be read."""
    if path == "-":
        return BadInput("standard input can't be read: it is closed, or a folder", 3)
    return BadInput("%s: %s" % (shown(path), why.strerror), 3)


def read(path, most=BUNDLE + 1):
    """The octets of a file, but no more than a count."""
    with opened(path) as file:
        try:
            return file.read(most)
        except OSError as why:
            raise unread(path, why) from None


def size(path):
    """The octets of a file in words, where it has a size."""
    try:
        found = os.stat(path)
    except OSError:
        return "more"
    return str(found.st_size) if stat.S_ISREG(found.st_mode) and path != "-" else "more"


def whole(path):
    """All octets of a file of which a piece is taken: a cut one might lack that piece, or have it in part."""
    octets = read(path, LONGEST + 1)
    if len(octets) > LONGEST:
        raise BadInput("%s: it has %s octets, and a file of which a piece is taken has at most %d" % (shown(path), size(path), LONGEST), 2)
    return octets


def before_context(octets):
    """What stands before a line `=== context`, as `pack --context` and `unpack --context` print one."""
    found = CONTEXT.search(octets)
    return octets[:found.start()] if found else octets


def after_context(octets):
    """What stands after such a line, or all."""
    found = CONTEXT.search(octets)
    return octets[found.end():] if found else octets


def first_line(octets):
    """The first line alone where items of flows follow, as `line` prints them."""
    first, _, rest = octets.partition(b"\n")
    return octets if not rest or UNHEARD.search(rest, 0, len(rest) - rest.endswith(b"\n")) else first.rstrip(b"\r")


TAKEN = {"packets": before_context, "context": after_context, "octets": first_line}


def refuse_heading(octets, name, above=0):
    """Refuses octets, above which so many lines stand, with a line that would begin another part."""
    if found := HEADING.search(octets):
        raise BadInput("%s:%d: a line that begins with `=== ` can't stand in a bundle" % (shown(name), above + octets.count(b"\n", 0, found.start()) + 1), 2)


def part_of(name, path):
    """The text of a part that a file gives. One that is too long for a bundle is cut behind that, so that the program refuses it."""
    octets = TAKEN[name](whole(path)) if name in TAKEN else read(path)
    refuse_heading(octets, path)
    return octets[:BUNDLE + 1]


def line_of(option, word):
    """A line of a part that a word gives."""
    octets = os.fsencode(word)
    if b"\n" in octets:
        raise BadInput("%s takes one line, and its word has a line feed" % option, 2)
    refuse_heading(octets, option)
    return octets


def part_in(octets, name):
    """The text of a part of a bundle, and the count of lines above it; or None."""
    found = re.search(rb"^=== %s(?:\r?\n|\Z)" % name.encode(), octets, re.MULTILINE)
    if found is None:
        return None
    follows = HEADING.search(octets, found.end())
    return octets[found.end():follows.start() if follows else None], octets.count(b"\n", 0, found.end())


def ended(octets):
    """The octets with a line feed at their end."""
    return octets if not octets or octets.endswith(b"\n") else octets + b"\n"


def bundle(parts, profile):
    """A bundle of parts; the profile stands last, so that its text stays as it is."""
    return b"".join(b"=== %s\n%s" % (name.encode(), ended(octets)) for name, octets in parts.items()) + b"=== profile\n" + profile
