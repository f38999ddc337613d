"""Takes items and packets of any size: what is more than a bundle holds goes through the program in pieces, each from the context that the one before left. What is
printed is what one call would print."""
import errno
import itertools
import json
import os
import re
import sys
import time

from . import losses, objects, parts, streams, sums, terminal
from .orders import LINES

PIECED = ("pack", "unpack", "fields", "stats", "loss")
LOST = "8"  # packets in a row, where none is said
BLOCK = 1 << 20  # octets of lines that go into a call, and that are read at a time
FIRST = 1 << 8  # octets of lines that go into the first call of `fields`, which prints many for each
PRINTED = 1 << 24  # octets that each of its further calls is to print, by what one before printed
OBJECTS = 1 << 22  # the same of objects, which take more memory here
SHARE = 1 << 18  # octets of what is printed that get the numbers of the whole at a time, and somewhat more
LAST = 1 << 16  # octets at the end of what is printed that are kept, for a fault
PROCESSORS = os.cpu_count() or 1
PROGRAMS = {"built": "crates/rohcfn/out/rohcfn", "kept": "crates/rohcfn/out/unproved/rohcfn"}  # as front/built.sh and front/kept.sh have them
CONTEXT = b"=== context\n"
NUMBERED = re.compile(rb"^(item|packet) (\d+)(?=: )|^(items|packets):(\d+)(?=: )")
REFUSED = re.compile(rb"^item (\d+): ")
SHOWN = 2  # seconds between two lines of progress


class Stopped(Exception):
    """The call ends here, with this status."""


def is_pieced(order):
    """Whether the command takes pieces. A sender whose packets survive losses keeps more than a context."""
    return order.command in PIECED and not order.has("robust")


def room(order, text):
    """How many octets of lines go in one call, beside a profile of so many: what is more goes in pieces."""
    return FIRST if order.command == "fields" else parts.BUNDLE - text


def blocks(read, name, part):
    """Blocks of whole lines of a file, up to a line `=== context` among packets. A line that is longer than a bundle is the last block."""
    rest, above = b"", 0
    while True:
        octets = rest + (more := read(BLOCK))
        end = len(octets) if not more else octets.rfind(b"\n") + 1
        whole, rest = octets[:end], octets[end:]
        if part == "packets" and (found := parts.CONTEXT.search(whole)):
            whole, more = whole[:found.start()], b""
        if len(rest) > parts.BUNDLE:
            whole, more = whole + rest, b""
        parts.refuse_heading(whole, name, above)
        if whole:
            yield parts.ended(whole), above
        above += whole.count(b"\n")
        if not more:
            return


def grouped(given):
    """Blocks of whole lines of about the same length, of blocks of whole lines."""
    waiting = b""
    for it in itertools.chain(given, [b""]):
        waiting += it
        while waiting and (len(waiting) > BLOCK or not it):
            end = end_of(waiting, BLOCK)
            yield waiting[:end]
            waiting = waiting[end:]


def end_of(lines, size):
    """Where the last of the whole lines ends that have so many octets; of a longer line, its end."""
    return len(lines) if len(lines) <= size else lines.rfind(b"\n", 0, size) + 1 or lines.find(b"\n") + 1 or len(lines)


class Pieces:
    """A command whose lines go through the program in pieces. `parts` are the other parts of its bundle."""

    def __init__(self, filter_path, order, top, given, profile):
        self.path, self.order, self.top = filter_path, order, top
        self.given, self.profile, self.part = dict(given), profile, LINES[order.lines[0][0]] if order.lines else "items"
        self.lines = self.count = self.calls = 0  # lines and items before the piece
        self.is_json = order.has("json")
        self.flags = [it for it in order.flags() if it != "--context" and not (it == "--json" and order.command != "fields")]  # (what is counted is made objects at the end)
        self.last_printed, self.size = b"", FIRST if order.command == "fields" else BLOCK  # the end of what a call printed, and octets of lines that go into the next
        self.begun, self.printer = [], streams.Printer()  # calls that aren't printed yet, and what prints the one before
        self.sums, self.told, self.rows = sums.Sums(), [], order.has("by-item")
        self.losses = losses.Losses(int(order.get("lost") or LOST)) if order.command == "loss" else None
        self.earlier = b""  # the items that stand before the next piece of `loss`
        self.shown = time.monotonic()

    def answer(self, given):
        """Runs the command on blocks of lines; its status."""
        take = {"stats": self.count_piece, "loss": self.lose_piece}.get(self.order.command, self.pass_objects if self.is_json else self.pass_piece)
        try:
            try:
                for it in itertools.chain.from_iterable(map(self.parted, given)):
                    take(it)
                    self.lines += it.count(b"\n")
                    self.count += items_in(it)
                    self.show()
            finally:
                self.finish()
                self.wait()
            return self.last()
        except Stopped as why:
            return why.args[0]

    def parted(self, lines):
        """The pieces of a block. Those of `fields` are as long as makes what is printed of each about the same."""
        while lines:
            end = end_of(lines, self.size)
            piece, lines = lines[:end], lines[end:]
            yield piece

    def call(self, command, flags, lines):
        """What the program prints of a piece, with its status."""
        printed, status = self.end(self.begin(command, flags, lines))
        return printed[:], status

    def begin(self, command, flags, lines):
        """Begins a call on a piece. All but the first say nothing beside, unless they fail."""
        words = [*self.program(), command, "--top", self.top, *flags]
        bundle = parts.bundle({**self.given, self.part: lines}, self.profile)
        self.calls += 1
        return Call(words, bundle, self.calls > 1, (len(lines), self.count, self.lines))

    def end(self, call):
        """What a call printed, as it stands in its file, with its status."""
        printed, said, status = call.end()
        self.wait()
        if status not in (0, 1) and said:
            terminal.writes(said.decode(errors="replace"))
        self.last_printed = printed[-LAST:]
        if self.order.command == "fields":
            self.size = max(1, min(BLOCK, (OBJECTS if self.is_json else PRINTED) * call.size // max(1, len(printed))))
        return printed, status

    def found(self):
        """The program that bin/rohcfn found for further calls, or None where each asks for it anew."""
        name = "built" if os.environ.get("ROHCFN_SETTLED") == "built" else "kept" if os.environ.get("ROHCFN_KEPT") else None
        return name and os.path.join(os.path.dirname(os.path.dirname(self.path)), PROGRAMS[name])

    def program(self):
        """The words that call the program. The first call goes by bin/rohcfn, which says what is to be said of it."""
        found = self.found() if self.calls else None
        return [found] if found else [self.path, "--"]

    def pass_piece(self, lines):
        """Prints what the program prints of a piece, while the call goes on, and keeps the context. A piece of `fields` begins before the one before is told."""
        is_ahead = self.order.command == "fields" and self.calls > 0 and self.found() is not None and PROCESSORS > 1
        self.begun.append(self.begin(self.order.command, [*self.flags, "--context"], lines))
        context = self.context_after(lines) if is_ahead else None
        if context is None:
            self.finish()
        else:
            self.finish(1)
            self.given["context"] = context

    def context_after(self, lines):
        """The context that a piece leaves, or None where a line is refused. To pack or unpack it takes less time than to tell its fields."""
        command = "pack" if self.part == "items" else "unpack"
        printed, _, status = self.begin(command, [it for it in self.flags if it == "--v2"] + ["--context"], lines).end()
        return context_in(printed) if status == 0 else None

    def finish(self, left=0):
        """Prints the texts of the calls that are begun, but for the last ones, of which so many are left, and keeps the context."""
        while len(self.begun) > left:
            call = self.begun.pop(0)
            printed, status = self.end(call)
            begin, end = last_line(printed) if status else (printed.rfind(b"\n" + CONTEXT) + 1, None)
            fault = [renumbered(printed[begin:end], call.count, call.lines) + b"\n"] if status and printed else []
            self.printer.begin(itertools.chain(self.headed(printed, begin, call.count), fault))
            if status:
                self.stop(status)
            self.given["context"] = context_in(printed)

    def pass_objects(self, lines):
        """The same of the objects of `fields`."""
        printed, status = self.call(self.order.command, [*self.flags, "--context"], lines)
        found = list(map(json.loads, objects.told(printed).splitlines()))
        last = found.pop() if status == 0 else None
        self.writes(b"".join(objects.line(self.numbered(it)).encode() for it in found))
        if last is None:
            raise Stopped(status)
        self.given["context"] = objects.entries(last).encode()

    def numbered(self, it):
        """An object with the numbers of the whole."""
        if it.get("number") is not None:
            return it | {"number": it["number"] + self.count}
        return it | {"line": it["line"] + self.lines} if it["kind"] == "fault" and it["part"] == self.part and it["line"] is not None else it

    def count_piece(self, lines):
        """Adds what the program counts of a piece, or prints its rows, and keeps the context that the items which aren't refused leave."""
        printed, status = self.call("stats", [it for it in self.flags if it != "--all" and not it.startswith("--at-most")], lines)
        if status != 0:
            self.writes(self.faults([self.whole(printed.rstrip(b"\n"))]) if printed else b"")
            raise Stopped(status)
        every = printed.splitlines()
        refused = [it for it in every if REFUSED.match(it)]
        self.told += map(self.whole, refused)
        (self.pass_rows if self.rows else self.sums.add)([it for it in every if not REFUSED.match(it)])
        self.go_on(without(lines, {int(REFUSED.match(it).group(1)) for it in refused}) if refused else lines)

    def lose_piece(self, lines):
        """Adds what the program counts of a piece, behind the items before it that may be lost, and keeps the context in which those of the next one are packed."""
        printed, status = self.call("loss", self.flags, self.earlier + lines)
        back = items_in(self.earlier)
        if status != 0:
            self.writes(self.faults([self.whole(printed.rstrip(b"\n"), back)]) if printed else b"")
            raise Stopped(status)
        earlier, status = self.call("loss", self.flags, self.earlier) if back else (b"", 0)
        if status != 0:
            raise Stopped(status)
        self.losses.add(printed.decode().splitlines(), earlier.decode().splitlines(), self.count - back)
        every = [it for it in (self.earlier + lines).split(b"\n") if it and it != b"\r"]
        end = max(0, len(every) - self.losses.lost - losses.BEFORE)
        self.go_on(joined(every[:end]))
        self.earlier = joined(every[end:])

    def go_on(self, lines):
        """Keeps the context that items leave, none of which is refused."""
        context, status = self.call("pack", [it for it in self.flags if it == "--v2"] + ["--context"], lines)
        if status != 0:
            raise Stopped(status)
        self.given["context"] = context_in(context)

    def pass_rows(self, every):
        """Prints the rows of a piece with the numbers of the whole."""
        rows = [it.split(b"\t") for it in every[1:]]
        self.sums.items += len(rows)
        self.sums.bits += sum(int(it[2]) for it in rows)
        if self.is_json:
            found = ({"kind": "item", "number": int(it[0]) + self.count, "format": it[1].decode(), "bits": int(it[2])} for it in rows)
            self.writes(b"".join(objects.line(it).encode() for it in found))
            return
        head = [every[0]] if not self.lines else []
        self.writes(b"".join(it + b"\n" for it in head + [b"\t".join([b"%d" % (int(it[0]) + self.count), *it[1:]]) for it in rows]))

    def faults(self, lines):
        """Fault lines, as text or as objects."""
        return b"".join(objects.line(objects.fault(it.decode())).encode() if self.is_json else it + b"\n" for it in lines)

    def last(self):
        """Prints what comes last; the status."""
        if self.losses:
            order = self.methods()[self.top]
            self.writes("".join(map(objects.line, self.losses.objects(order)) if self.is_json else (it + "\n" for it in self.losses.lines(order))).encode())
            return 0
        if self.order.command != "stats":
            if self.order.has("context"):
                self.writes(self.last_context())
            return 0
        self.writes((b"" if self.rows else self.table()) + self.faults(self.told))
        above = self.order.has("at-most") and self.sums.bits > int(self.order.get("at-most")) * self.sums.items
        return 1 if above or self.order.has("all") and self.told else 0

    def last_context(self):
        """What is printed of the last context."""
        entries = self.given.get("context", b"")
        return objects.line(objects.context(entries.decode())).encode() if self.is_json else CONTEXT + entries

    def table(self):
        """What is counted of all pieces."""
        unsure = self.sums.complete(self.methods())
        if unsure:
            terminal.says("below %s formats without bits are counted only in pieces in which the field has bits" % ", ".join(unsure))
        return "".join(map(objects.line, self.sums.objects()) if self.is_json else (it + "\n" for it in self.sums.lines())).encode()

    def methods(self):
        """The formats of each method."""
        return sums.methods_of(self.call("show", [], b"")[0].decode())

    def headed(self, printed, end, count):
        """What is printed of a piece up to an end, in blocks, with the numbers of the whole in the head lines of `fields`, where so many items stand before it."""
        mark = b"item " if self.part == "items" else b"packet "  # (all other lines begin with blanks)
        if self.order.command != "fields" or not count or printed[:len(mark)] != mark:
            yield memoryview(printed)[:end]
            return
        begin, between = 0, b"\n" + mark
        while begin < end:
            after = printed.find(between, begin + SHARE, end) + 1 or end
            trees = (it.partition(b" ") for it in printed[begin + len(mark):after].split(between))
            yield mark + between.join(b"%d %s" % (int(number) + count, rest) for number, _, rest in trees)
            begin = after

    def whole(self, line, back=0):
        """A fault line with the numbers of the whole, of a piece that stands behind so many items of those before it."""
        return renumbered(line, self.count - back, self.lines - back)

    def writes(self, octets):
        """Prints octets, behind what is being printed."""
        self.wait()
        self.judge(streams.number_in([octets]))

    def wait(self):
        """Waits until what is being printed is out."""
        self.judge(self.printer.end())

    def judge(self, number):
        """Ends the call, as the program does, where a fault of this number stopped what is printed."""
        if number:
            if number != errno.EPIPE:
                terminal.writes("error: writing the output failed\n")
            self.stop(3)

    def stop(self, status):
        """Ends the call with a status. No more is printed of what is begun."""
        for it in self.begun:
            it.drop()
        self.begun = []
        raise Stopped(status)

    def show(self):
        """Says on a terminal how far the call is."""
        if sys.stderr is not None and sys.stderr.isatty() and time.monotonic() - self.shown >= SHOWN:
            self.shown = time.monotonic()
            terminal.says("%d %s are done" % (self.count, self.part))


class Call:
    """A call of the program on a piece, by files in memory: a pipe takes as long again for what is printed here. The piece has `size` octets of lines, and behind
    `count` items and so many `lines` it stands."""

    def __init__(self, words, given, is_quiet, place):
        import subprocess  # (it takes a while to load, and most calls need no pieces)
        self.size, self.count, self.lines = place
        self.printed, self.said = streams.file_of(), streams.file_of()
        with streams.file_of(given) as source:
            self.running = subprocess.Popen(words, stdin=source, stdout=self.printed, stderr=self.said if is_quiet else None)

    def end(self):
        """What it printed, what it said, where that is kept, and its status, once it ends."""
        status = self.running.wait()
        with self.printed, self.said:
            return streams.mapped(self.printed), streams.mapped(self.said)[:], status

    def drop(self):
        """Ends it at once."""
        self.running.kill()
        self.end()


def context_in(printed):
    """The entries of the context at the end of what is printed."""
    return printed[printed.rfind(b"\n" + CONTEXT) + 1 + len(CONTEXT):]


def renumbered(line, count, lines):
    """A fault line with the numbers of the whole, of a piece that stands behind so many items and lines."""
    def whole(found):
        if found.group(1):
            return b"%s %d" % (found.group(1), int(found.group(2)) + count)
        return b"%s:%d" % (found.group(3), int(found.group(4)) + lines)
    return NUMBERED.sub(whole, line)


def last_line(printed):
    """Where the last line begins and ends that isn't empty."""
    end = len(printed)
    while end and printed[end - 1] == ord("\n"):
        end -= 1
    return printed.rfind(b"\n", 0, end) + 1, end


def items_in(lines):
    """How many of the lines aren't empty."""
    every = lines.split(b"\n")
    return len(every) - every.count(b"") - every.count(b"\r")


def without(lines, numbers):
    """The lines without the items of these numbers."""
    every = [it for it in lines.split(b"\n") if it and it != b"\r"]
    return joined([it for at, it in enumerate(every, 1) if at not in numbers])


def joined(lines):
    """Lines as a text."""
    return b"".join(it + b"\n" for it in lines)
