"""Adds up what `loss` prints of pieces.

A piece is given behind the last N + 1 items of those before it: so each of its packets has before it all that may be lost, and one that came through. What is
counted of these items by themselves was counted before, and is taken off again. A packet that is shown of them was looked at before, too."""
import re

from . import objects
from .sums import mean, set_out

BEFORE = 1  # items that come through before those that are lost
SHOWN = re.compile(r"(lost (\d+) item )(\d+)( \S+ (wrong|refused).*)")


class Losses:
    """What is counted of all pieces so far, with up to so many packets lost."""

    def __init__(self, lost):
        self.lost, self.items, self.bits = lost, 0, 0
        self.counts = [[0] * 4 for _ in range(lost + 1)]  # by the number of lost packets: packets, right, refused, wrong
        self.formats, self.reach, self.shown = {}, {}, {}

    def add(self, lines, earlier, before):
        """Adds what the program printed of a piece behind other items, above which so many stand, and takes off what it printed of these alone."""
        self.count(lines, 1)
        if earlier:
            self.count(earlier, -1)
        rows, rest = self.parted(lines)
        for name, *_, reach in rows:
            self.reach[name] = min(int(reach), self.reach.get(name, self.lost))
        self.keep(rest, before)

    def count(self, lines, sign):
        """Adds what is counted in lines of the program, or takes it off."""
        words = lines[0].split()
        self.items, self.bits = self.items + sign * int(words[1]), self.bits + sign * int(words[3])
        for line, sums in zip(lines[2:], self.counts):
            change(sums, line.split()[1:], sign)
        for name, *numbers, _ in self.parted(lines)[0]:
            change(self.formats.setdefault(name, [0] * 4), numbers, sign)

    def parted(self, lines):
        """The rows of the formats, and the lines below the tables."""
        place = 2 + len(self.counts)
        end = next((at for at in range(place, len(lines)) if not lines[at].startswith(" ")), len(lines))
        return [it.split() for it in lines[place + 1:end]], lines[end:]

    def keep(self, lines, before):
        """Keeps of each number of lost packets the first packet that is wrong, else the first that is refused."""
        shown = []
        for line in lines:
            if found := SHOWN.fullmatch(line):
                shown.append((int(found[2]), found[5], ["%s%d%s" % (found[1], int(found[3]) + before, found[4])]))
            else:
                shown[-1][2].append(line)
        for lost, verdict, text in shown:
            if lost not in self.shown or verdict == "wrong" != self.shown[lost][0]:
                self.shown[lost] = verdict, text

    def lines(self, order):
        """The lines as the program prints them; the formats stand in this order."""
        yield "items %d bits %d mean %s" % (self.items, self.bits, mean(self.bits, self.items))
        verdicts = ("packets", "right", "refused", "wrong")
        yield from set_out([("  lost", *verdicts)] + [("  %d" % lost, *map(str, numbers)) for lost, numbers in enumerate(self.counts)])
        if self.lost:
            every = self.heard(order)
            yield from set_out([("  format", *verdicts, "reach")] + [("  " + name, *map(str, numbers), str(self.reach[name])) for name, numbers in every])
        for lost in sorted(self.shown):
            yield from self.shown[lost][1]

    def heard(self, order):
        """The formats with packets that were counted, with their counts, in this order."""
        return [(it, self.formats[it]) for it in order if any(self.formats.get(it, ()))]

    def objects(self, order):
        """The same as objects."""
        verdicts = ("packets", "right", "refused", "wrong")
        yield {"kind": "all", "items": self.items, "bits": self.bits, "mean": objects.mean(mean(self.bits, self.items))}
        for lost, numbers in enumerate(self.counts):
            yield {"kind": "lost", "lost": lost, **dict(zip(verdicts, numbers))}
        for name, numbers in self.heard(order) if self.lost else ():
            yield {"kind": "format", "format": name, **dict(zip(verdicts, numbers)), "reach": self.reach[name]}
        for lost in sorted(self.shown):
            yield objects.case(self.shown[lost][1])


def change(sums, numbers, sign):
    """Adds numbers to sums, or takes them off."""
    sums[:] = [it + sign * int(number) for it, number in zip(sums, numbers)]
