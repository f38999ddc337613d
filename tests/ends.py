"""Tries what the program itself does with its words and its streams, before and after a run: words and a name that aren't UTF-8, texts that can't be written, control
characters of words in the text for the person who called, and what --lost doesn't take.

What is due is written by hand here, by docs/FORMATS.md and docs/USAGE.md."""
import os
import shutil
import subprocess
import sys
import tempfile

from .counting import Checks
from .program import EXAMPLES, built

BUNDLE = (EXAMPLES / "plain.bundle").read_bytes()
PARTS = BUNDLE.split(b"\n", 2)[2]
PACKED = (EXAMPLES / "plain.expected").read_bytes()

check = Checks("ends")


def call(program, *words, name=None, given=BUNDLE, out=subprocess.PIPE, said=subprocess.PIPE):
    """How a call ended and what it wrote. Where a name is given the program is called by that."""
    ran = subprocess.run([name or program, *words], executable=program, input=given, stdout=out, stderr=said, check=False)
    return ran.returncode, ran.stdout, ran.stderr


def words_of_octets(program):
    """Words that aren't UTF-8, and a program's name that isn't or that is a command."""
    due = (2, b"", b"error: a word is not UTF-8\n")
    for words in ([b"\xff"], [b"pack", b"--top", b"pl\xffin"], [b"pack", b"--top", b"plain", b"\xc3"]):
        check("words that aren't UTF-8: %r" % (words,), call(program, *words) == due, call(program, *words))
    for name in (b"/tmp/\xff/rohcfn", b"show", b"--help", b"\x1b"):
        check("a program called %r" % name, call(program, name=name) == (0, PACKED, b""), call(program, name=name))
    with tempfile.TemporaryDirectory() as folder:
        place = os.path.join(os.fsencode(folder), b"\xe9t\xe9")
        os.mkdir(place)
        copied = os.path.join(place, b"rohcfn")
        shutil.copy(program, copied)
        check("a program in a folder whose name isn't UTF-8", call(copied) == (0, PACKED, b""), call(copied))
        seen = call(copied, b"pack", b"--top", b"plain", given=PARTS)
        check("words of such a program", seen == (0, PACKED, b""), seen)


def full(program):
    """Where what is printed can't be written."""
    with open("/dev/full", "wb") as nowhere:
        for words in (["pack"], ["fly", "--top", "plain"], ["--help"], ["line", "--help"]):
            seen = call(program, *words, said=nowhere)
            check("a text that can't be written: %s" % words, seen[:2] == (3, b""), seen)
        seen = call(program, given=b"=== words\npack\n", said=nowhere)
        check("a text for words of a bundle that can't be written", seen[:2] == (3, b""), seen)
        seen = call(program, out=nowhere)
        check("output that can't be written", seen[::2] == (3, b"error: writing the output failed\n"), seen)
        seen = call(program, said=nowhere)
        check("nothing to say, and nowhere to say it", seen[:2] == (0, PACKED), seen)


def escapes(program):
    """Control characters of words, which the text shows and no terminal obeys."""
    for shown, word in (("'\\u{1b}[31mfly'", "\x1b[31mfly"), ("'fly\\u{7f}'", "fly\x7f"), ("'f\\u{9b}ly'", "f\x9bly")):
        for name, seen in (("a word", call(program, word, "--top", "plain")), ("a word of a bundle", call(program, given=b"=== words\n%s --top plain\n" % word.encode()))):
            holds = seen[:2] == (2, b"") and shown in seen[2].decode() and not any(it < " " and it != "\n" or "\x7f" <= it < "\xa0" for it in seen[2].decode())
            check("%s with a control character: %s" % (name, shown), holds, seen)
    seen = call(program, "pack", "--top", "plain\x1b[2J", given=PARTS)
    check("a top with a control character is no method", seen == (1, b"profile:1:1: E27 no such top method without parameters\n", b""), seen)


def numbers(program):
    """Texts that `--lost` doesn't take: what is told names them, and says what is needed."""
    for shown, word in (("64", "64"), ("100", "100"), ("257", "257"), ("+1", "+1"), ("-1", "-1"), ("01", "01"), ("", ""), ("1x", "1x"), ("\u0661", "\u0661"), ("1\\u{1b}", "1\x1b")):
        for words in (["--lost=" + word], ["--lost", word]):
            seen = call(program, "loss", "--top", "plain", *words, given=PARTS)
            due = "error: invalid value '%s' for '--lost <N>': a number from 0 to 63 is needed\n\nFor more information, try '--help'.\n\nA bundle is read" % shown
            due = "error: unexpected argument '-1' found\n" if words == ["--lost", "-1"] else due
            check("a number that is none: %s" % words, seen[:2] == (2, b"") and seen[2].decode().startswith(due), seen)
    seen = call(program, given=b"=== words\nloss --top plain --lost 064\n" + PARTS)
    check("a number of a bundle that is none", seen[:2] == (2, b"") and b"'064'" in seen[2], seen)


def main():
    for trial in (words_of_octets, full, escapes, numbers):
        trial(built())
    return check.status()


if __name__ == "__main__":
    sys.exit(main())
