"""Shows the faults of a profile at their places: file, line and column, the line itself, and what helps."""
import errno
import os
import re
import subprocess
import sys

from . import advice, definitions, mending, objects, parts, streams, terminal

LINE = re.compile(r"profile:(\d+):(\d+): (E\d\d) (.*)")
BITS = re.compile(r"(items|packets):(\d+): I[12] bad (item|packet)")  # a line that is no item or no packet
HEX = re.compile(rb"(?:0[xX])?([0-9a-fA-F]+)(?=\s|$)")  # its first word, where that is octets in hexadecimal alone
RED, BLUE, PLAIN = "\033[1;31m", "\033[1;34m", "\033[0m"
WIDTH = 160  # characters of a line that are shown
GREATEST = 10  # faults of one text that are shown
CHUNK = 1 << 16  # octets of the program's output that are passed on at a time
LOOKED_THROUGH = 1 << 19  # characters of copies that are looked through for more of them


def begin_of(text, line):
    """The offset at which a line of a text begins, or None."""
    begin = 0
    for _ in range(line - 1):
        begin = text.find("\n", begin) + 1
        if begin == 0:
            return None
    return begin


def fault_of(printed, text):
    """The fault of a profile that the program prints, or None."""
    found = LINE.fullmatch(objects.fault_line(printed))
    return None if found is None else fault_at(text, int(found.group(1)), int(found.group(2)), found.group(3), found.group(4))


def fault_at(text, line, column, code, words):
    """The fault at a place of a text, or None where the text has no such line."""
    begin = begin_of(text, line)
    return None if begin is None else advice.Fault(text, begin + column - 1, code, words)


def seen(text):
    """A text without what a terminal obeys, or what changes the order of what is seen."""
    return "".join(it if it.isprintable() or it == "\t" else "?" for it in text)


def place_of(text, start):
    """The line and the column of an offset, and the line's text."""
    begin, end = text.rfind("\n", 0, start) + 1, text.find("\n", start)
    return text.count("\n", 0, start) + 1, start - begin + 1, text[begin:None if end < 0 else end].rstrip("\r")


def lines_at(text, start, width, words, name, paint, above):
    """A place of a text with these words: so many characters of its line, in a colour."""
    (colour, said), (line, column, whole) = words, place_of(text, start)
    cut = max(0, column - 1 - WIDTH // 2) if len(whole) > WIDTH else 0
    shown, before = seen(whole[cut:cut + WIDTH]), column - 1 - cut
    margin, blank = "%d |" % (line + above), re.sub(r"[^\t]", " ", shown[:before])
    carets = "^" * max(1, min(width, len(shown) - before))
    yield paint(colour, "%s:%d:%d: %s" % (name, line + above, column, said))
    yield paint(BLUE, margin) + (" " + shown if shown else "")
    yield paint(BLUE, " " * (len(margin) - 1) + "|") + " " + blank + paint(colour, carets)


def lines_of(fault, name, paint, above=0):
    """What is shown of a fault of a text, above which so many lines stand in its file."""
    yield from lines_at(fault.text, fault.start, fault.width(), (RED, "%s %s" % (fault.code, fault.words)), name, paint, above)
    first = definitions.first_of(fault)
    if first is not None:
        yield from lines_at(fault.text, first.start, len(first.name), (BLUE, "note: " + definitions.says(fault)), name, paint, above)
    for it in advice.hints(fault):
        yield paint(BLUE, "help: ") + it
    said, pages = advice.page(fault.code)
    if said:
        yield paint(BLUE, "help: ") + said
    yield "see " + pages


def painter():
    """What gives words a colour: on a terminal, and where NO_COLOR is empty."""
    if sys.stderr is not None and sys.stderr.isatty() and not os.environ.get("NO_COLOR") and os.environ.get("TERM") != "dumb":
        return lambda colour, words: colour + words + PLAIN
    return lambda _, words: words


def faults(first, again):
    """The first fault of a text, and those found on copies in which the ones before are mended. `again` gives what the program prints for a copy."""
    copy, found, told = mending.Copy(first.text), first, set()
    most = min(GREATEST, max(1, LOOKED_THROUGH // max(1, len(first.text))))
    while found is not None and len(told) < most:
        start = copy.origin(found.start)
        if told and (found.code not in mending.SAFE or start in told):
            return
        yield advice.Fault(first.text, start, found.code, found.words)
        told.add(start)
        found = fault_of(again(copy.text), copy.text) if len(told) < most and copy.mend(found) else None


def show(printed, name, text, above, again):
    """Shows what there is to show of what the program printed."""
    first = fault_of(printed, text)
    if first is None:
        return
    paint = painter()
    for it in faults(first, again):
        terminal.writes("\n".join(lines_of(it, terminal.shown(name), paint, above)) + "\n")


def show_bits(printed, file, paint):
    """Shows what helps where a line of items or packets has octets alone, and not how many bits they are."""
    found = BITS.fullmatch(objects.fault_line(printed))
    if found is None:
        return
    file.seek(0)
    lines = (parts.part_in(file.read(), found.group(1)) or (b"", 0))[0].split(b"\n")
    number = int(found.group(2))
    octets = HEX.match(lines[number - 1].strip()) if number <= len(lines) else None
    if octets is not None:
        digits = octets.group(1).decode()
        digits += "0" * (len(digits) % 2)
        due = "%d:%s" % (4 * len(octets.group(1)), digits)
        terminal.writes(paint(BLUE, "help: ") + "the number of bits and a colon stand before the octets: %s\n" % terminal.shown(due if len(due) < WIDTH else due[:WIDTH] + "..."))


def passed_on(call, file, is_json):
    """Runs the program and prints what it prints; its status, the end of its output, and what stopped that on its way, or None."""
    last = b""
    with subprocess.Popen(call, stdin=file, stdout=subprocess.PIPE) as running:
        while octets := running.stdout.read1(CHUNK):
            octets = octets if last or not is_json else objects.told(octets)
            fault = streams.fault_in(octets) if sys.stdout is not None else OSError()
            if fault is not None:
                running.stdout.close()
                return 3, b"", fault
            last = (last + octets)[-CHUNK:]
    return running.returncode if running.returncode >= 0 else 128 - running.returncode, last, None


def show_of(program, printed, name, text, top, above):
    """Shows a fault of the profile that was printed, where there is one."""
    def again(copy):
        """What the program prints for a copy of the text. (An unproved build takes its time, so it isn't asked.)"""
        if os.environ.get("ROHCFN_SETTLED") != "built" and not os.environ.get("ROHCFN_KEPT"):
            return b""
        words = [program, "--", "show", "--top", top]
        return subprocess.run(words, input=b"=== profile\n" + copy.encode(), stdout=subprocess.PIPE, stderr=subprocess.DEVNULL, check=False).stdout
    show(printed, name, text.decode(errors="replace"), above, again)


def shown(call, file, is_json, name, text, top, above):
    """Runs the program, prints what it prints, and shows a fault of the profile besides, whose text begins below so many lines of its file; its status."""
    status, printed, fault = passed_on(call, file, is_json)
    if fault is not None:
        if fault.errno != errno.EPIPE:  # (a reader that is gone is no news)
            terminal.writes("error: writing the output failed\n")
        return status

    show_of(call[0], printed, name, text, top, above)
    show_bits(printed, file, painter())
    return status
