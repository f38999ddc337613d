"""Through the built program: each front of a profile's text and of its certificate, by octets, and of a line's octets, by digits.

What is due follows here from the parts of each text, by docs/FORMATS.md; none is taken from the program."""
import re
import sys

from .program import EXAMPLES, run
from .reference.samples import CERTIFICATES, TICK


# tokens of which a front alone can't stand in their place, and lines of a certificate that end in a name
WHOLE_TOKENS = re.compile(r"UNCOMPRESSED|COMPRESSED|UVALUE|ULENGTH|=:=")
NAMING = re.compile(r"(method|leaf|format|take) \w+")

OCTETS, ITEMS, ENDS = "0080800180800014", ["0 8:01\n", "1 8:01\n", "0 8:02\n"], [3, 6, 8]


def fault(offset, words):
    """The fault line at an offset of the profile's text."""
    before = TICK[:offset]
    return "profile:%d:%d: %s\n" % (before.count("\n") + 1, offset - before.rfind("\n"), words)


def shown(count):
    """What `show` prints of so many octets of the text, and its status."""
    front = TICK[:count]
    if front.rstrip() == TICK.rstrip():
        return (EXAMPLES / "tick-show.expected").read_text(), 0
    if not front:
        return fault(0, "E27 no such top method without parameters"), 1
    if front.endswith("=:"):
        return fault(count - 1, "E01 character is not allowed here"), 1
    if front.endswith("0x") or front.count("'") % 2:
        return fault(count, "E01 character is not allowed here"), 1
    cut = [it.start() for it in WHOLE_TOKENS.finditer(TICK) if it.start() < count < it.end()]
    return fault(*cut or [count], "E10 unexpected token"), 1


def checked(count):
    """What `check` prints of so many octets of the certificate, and its status. No front of a line is another line that may stand there."""
    text = CERTIFICATES["tick"]
    *lines, last = text[:count].split("\n")
    rest = text[count:].split("\n")[0]
    if text[count:] in ("", "\n"):
        return "accepted\n", 0
    is_whole = last and not rest
    is_unknown = not is_whole and NAMING.fullmatch(last)
    return "certificate:%d: %s\n" % (len(lines) + 1 + bool(is_whole), "K2 unknown name" if is_unknown else "K1 bad word"), 1


def received(count):
    """What `line --receive` prints of so many digits, and its status."""
    if count % 2:
        return "octets: I5 bad hex\n", 1
    whole = "".join(item for item, end in zip(ITEMS, ENDS) if 2 * end <= count)
    is_between = count // 2 in (0, *ENDS)
    return (whole, 0) if is_between else (whole + "line: L4 ended inside a packet\n", 1)


def fronts():
    """What is cut, the words, the parts up to it, it as a whole, and what is due of each count of its characters."""
    yield "profile", "show --top tick", "", TICK, shown
    yield "certificate", "check --top tick", "=== profile\n" + TICK, CERTIFICATES["tick"], checked
    yield "octets", "line --receive --top tick", "=== profile\n" + TICK, OCTETS, received


def main():
    passed = failed = 0
    for part, words, before, text, due in fronts():
        for count in range(len(text) + 1):
            bundle = "=== words\n%s\n%s=== %s\n%s" % (words, before, part, text[:count])
            seen = run(bundle)
            if seen == due(count):
                passed += 1
            else:
                failed += 1
                print("%d characters of the %s: %r, and not %r" % (count, part, seen[0], due(count)[0]))
    print("prefixes: %d passed, %d failed" % (passed, failed))
    return 1 if failed or not passed else 0


if __name__ == "__main__":
    sys.exit(main())
