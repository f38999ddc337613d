"""What goes to the person who called: on standard error, with nothing in names and words that a terminal obeys or that changes the order of what is seen."""
import os
import sys


def fill():
    """Opens the streams 0 to 2 where they are closed, so that no file takes their place. They are closed again where a program takes the place of this one."""
    while (stream := os.open(os.devnull, os.O_RDWR)) <= 2:
        pass
    os.close(stream)


def shown(word):
    """A name or a word as it is shown: what isn't seen as itself stands there by its number."""
    return "".join(it if it.isprintable() else "\\x%02x" % (ord(it) - 0xDC00) if "\udc80" <= it <= "\udcff" else "\\u{%x}" % ord(it) for it in word)


def writes(text):
    """Writes a text to standard error; whether all of it went out."""
    if sys.stderr is None:
        return False
    rest = memoryview(text.encode(sys.stderr.encoding, "backslashreplace"))
    try:
        while rest:
            rest = rest[os.write(2, rest):]
    except OSError:
        return False
    return True


def says(text):
    """The same for what front/ itself says. It may have several lines, whose words are shown as they have to be."""
    return writes("rohcfn: %s\n" % text)
