"""Adds up what `stats` counts of pieces, row by row.

A field that has no bits in a piece has no row there. So what it lacks is added at the end: it has as many items as the format above it; and those that were in no
row below it went by a format of its method that can be without bits."""
import re

from . import objects

FORMAT = re.compile(r"(method) (\S+)|format (\S+) least (\d+) most \d+")


def methods_of(shown):
    """Of each method that `show` prints the formats, in their order, and whether they can be without bits."""
    found = {}
    for kind, name, form, least in (it.groups() for it in map(FORMAT.fullmatch, shown.splitlines()) if it):
        if kind:
            formats = found.setdefault(name, {})
        else:
            formats[form] = least == "0"
    return found


class Row:
    """What is counted of a format or a field, and the rows below it, in the order in which they stand."""

    def __init__(self):
        self.items = self.bits = 0
        self.below, self.before = {}, {}  # the rows by their names; and of each name those that stood before it

    def child(self, name, earlier):
        """The row of a name, which stands after these others of the same piece."""
        self.before.setdefault(name, set()).update(earlier)
        return self.below.setdefault(name, Row())

    def ordered(self):
        """The rows below: each after those that stood before it in any piece, else in the order in which they came."""
        left, done = list(self.below), []
        while left:
            name = next((it for it in left if not self.before[it] & set(left)), left[0])
            left.remove(name)
            done.append((name, self.below[name]))
        return done

    def complete(self, methods, unsure):
        """Adds to the rows below this format what they lack. The fields of which that can't be told are noted."""
        for name, field in self.below.items():
            lacking, field.items = self.items - field.items, self.items
            if not field.below:
                continue
            method = next(iter(field.below)).rpartition(".")[0]
            formats = methods.get(method, {})
            empty = [it for it, can_be in formats.items() if can_be]
            if lacking and len(empty) != 1:
                unsure.append(name)
            elif lacking:
                field.below.setdefault("%s.%s" % (method, empty[0]), Row()).items += lacking
            field.below = {it: field.below[it] for it in ("%s.%s" % (method, form) for form in formats) if it in field.below} if formats else field.below
            field.before = {it: set() for it in field.below}
            for it in field.below.values():
                it.complete(methods, unsure)


class Sums:
    """The counts of all pieces so far."""

    def __init__(self):
        self.items = self.bits = 0
        self.top = Row()

    def complete(self, methods):
        """Adds what the rows lack, and gives the fields of which that can't be told."""
        unsure = []
        for it in self.top.below.values():
            it.complete(methods, unsure)
        return unsure

    def add(self, lines):
        """Adds the lines that the program printed of a piece, those of refused items left out."""
        words = lines[0].split()
        self.items, self.bits = self.items + int(words[1]), self.bits + int(words[3])
        open_rows, earlier = [self.top], [set()]
        for line in lines[2:]:
            text = line.decode()
            name, items, bits, _ = text.split()
            depth = (len(text) - len(text.lstrip(" "))) // 2
            del open_rows[depth:], earlier[depth:]
            row = open_rows[-1].child(name, earlier[-1])
            earlier[-1] = earlier[-1] | {name}
            row.items, row.bits = row.items + int(items), row.bits + int(bits)
            open_rows.append(row)
            earlier.append(set())

    def lines(self):
        """The lines as the program prints them."""
        rows = [("  format", "items", "bits", "mean")]
        self.collect(rows, self.top, 1)
        yield "items %d bits %d mean %s" % (self.items, self.bits, mean(self.bits, self.items))
        yield from set_out(rows)

    def objects(self):
        """The same as objects."""
        rows = []
        self.collect(rows, self.top, 0)
        yield {"kind": "all", "items": self.items, "bits": self.bits, "mean": objects.mean(mean(self.bits, self.items))}
        for name, items, bits, found in rows:
            depth = (len(name) - len(name.lstrip(" "))) // 2
            yield {"kind": "field" if depth % 2 else "format", "depth": depth, "name": name.lstrip(" "), "items": int(items), "bits": int(bits), "mean": objects.mean(found)}

    def collect(self, rows, above, depth):
        for name, row in above.ordered():
            rows.append(("  " * depth + name, str(row.items), str(row.bits), mean(row.bits, row.items)))
            self.collect(rows, row, depth + 1)


def set_out(rows):
    """The lines of a table: all columns but the last are as wide as their longest word."""
    widths = [max(map(len, column)) for column in zip(*rows)]
    for *words, last in rows:
        yield "  ".join([*[word.ljust(width) for word, width in zip(words, widths)], last])


def mean(bits, items):
    """The mean with one decimal, halves up."""
    if items == 0:
        return "-"
    tenths = (20 * bits + items) // (2 * items)
    return "%d.%d" % divmod(tenths, 10)
