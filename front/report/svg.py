"""Draws: octets, trees, bars over time and curves, as SVG that stands in a page. Colours are classes of style.css."""
import html

from ..terminal import shown

ROW, OCTET, CELL = 34, 8, 44  # heights and widths of rows of octets
CHARACTER, SMALL = 6.7, 5.5  # widths of characters
COLOURS = 12


def unbroken(text):
    """A text as it is shown in a page: what isn't seen as itself stands there by its number."""
    return html.escape(text if text.isprintable() else shown(text), quote=True)


def number(value):
    """A number without a useless point."""
    return ("%.1f" % value).removesuffix(".0")


def tag(name, inside="", **attributes):
    """An element. Underscores of names are hyphens, and `kind` is its class."""
    names = {key: "class" if key == "kind" else key.replace("_", "-") for key in attributes}
    written = "".join(' %s="%s"' % (names[key], unbroken(number(it) if isinstance(it, float) else str(it))) for key, it in attributes.items())
    return "<%s%s>%s</%s>" % (name, written, inside, name) if inside else "<%s%s/>" % (name, written)


def words(text, x, y, kind="", **more):
    """A text at a place."""
    return tag("text", unbroken(text), x=float(x), y=float(y), **({"kind": kind} if kind else {}), **more)


def drawing(title, width, height, parts, kind="", style=""):
    """An SVG with its title, as wide as there is room, if its style says nothing else."""
    style = {"style": style} if style else {}
    return tag("svg", tag("title", unbroken(title)) + "".join(parts), xmlns="http://www.w3.org/2000/svg", viewBox="0 0 %s %s" % (number(width), number(height)), role="img",
               kind=kind or "drawing", **style)


def cut(text, width, character=CHARACTER):
    """As much of a text as there is room for."""
    room = int((width - 6) / character)
    return text if len(text) <= room else text[:max(0, room - 1)] + "\u2026" if room > 1 else ""


# ---- octets


class Octets:
    """The packed bits of a format: fields with one place and one length in boxes, each other field in a row of its own."""

    def __init__(self, encodings):
        self.encodings, self.parts, self.row, self.at = encodings, [], 0, 0
        self.parts += [words(str(it), 4 + CELL * it + CELL / 2, 12, "scale") for it in range(OCTET)]

    def y(self):
        return 18 + ROW * self.row

    def told(self, column):
        """What a title tells of a field: its encoding, and which bits it has."""
        encoding, _ = self.encodings.get(column["field"], ("", ""))
        most = column["bits_most"]
        bits = "%d" % most if column["bits_least"] == most else "%d to %d" % (column["bits_least"], most)
        value = "" if column["constant"] is None else ", constant %s" % column["constant"]
        return "%s =:= %s (%s bit%s%s)" % (column["field"], encoding or column["calls"] or "?", bits, "" if bits == "1" else "s", value)

    def box(self, column, x, width, first, kind):
        """A box with the name, and below it the encoding; or with the digits of a constant."""
        name, (encoding, _) = column["field"], self.encodings.get(column["field"], ("", ""))
        inside = tag("title", unbroken(self.told(column))) + tag("rect", x=float(x), y=float(self.y()), width=float(width), height=ROW, kind="box " + kind)
        if not first:
            name, encoding = "\u2026", ""
        inside += words(cut(name, width), x + 4, self.y() + 14, "name") + words(cut(encoding, width, SMALL), x + 4, self.y() + 27, "small")
        return tag("g", inside)

    def fixed(self, column):
        """Boxes for a field, with a row for each octet."""
        _, kind = self.encodings.get(column["field"], ("", "other"))
        left, first = column["bits_most"], True
        digits = digits_of(column)
        while left:
            bits = min(left, OCTET - self.at)
            x, done = 4 + CELL * self.at, column["bits_most"] - left
            self.parts.append(self.box(column, x, CELL * bits, first, "constant" if digits else kind))
            if digits:
                self.parts.pop()
                self.parts.append(self.constant(column, x, digits[done:done + bits]))
            left, first, self.at = left - bits, False, self.at + bits
            if self.at == OCTET:
                self.row, self.at = self.row + 1, 0

    def constant(self, column, x, digits):
        """A box with the digits of a constant."""
        inside = tag("title", unbroken(self.told(column))) + tag("rect", x=float(x), y=float(self.y()), width=float(CELL * len(digits)), height=ROW, kind="box constant")
        inside += "".join(words(it, x + CELL * at + CELL / 2, self.y() + 21, "digit") for at, it in enumerate(digits))
        return tag("g", inside)

    def own_row(self, column):
        """A row for a field without one place or one length."""
        if self.at:
            self.row, self.at = self.row + 1, 0
        _, kind = self.encodings.get(column["field"], ("", "other"))
        inside = tag("title", unbroken(self.told(column))) + tag("rect", x=4, y=float(self.y()), width=CELL * OCTET, height=ROW, kind="box open " + kind)
        self.parts.append(tag("g", inside + words(cut(self.told(column), CELL * OCTET), 8, self.y() + 21, "name")))
        self.row += 1

    def drawn(self, title):
        rows = self.row + (1 if self.at else 0)
        return drawing(title, CELL * OCTET + 8, 22 + ROW * max(1, rows), self.parts, "octets")


def digits_of(column):
    """The digits of a constant that fits in its bits, or nothing."""
    value, bits = column["constant"], column["bits_most"]
    return format(int(value), "0%db" % bits) if value is not None and 0 <= int(value) < 1 << bits else ""


def octets(diagram, encodings):
    """The packed bits of a format; of each field its encoding in words, and the kind of that."""
    drawn = Octets(encodings)
    for column in diagram["columns"]:
        if column["bits_most"]:
            is_fixed = column["offset_least"] == column["offset_most"] and column["bits_least"] == column["bits_most"]
            (drawn.fixed if is_fixed else drawn.own_row)(column)
    return drawn.drawn("The packed bits of %s.%s" % (diagram["method"], diagram["format"]))


# ---- trees


def tree(title, placed):
    """A tree whose nodes have places: of each its text, kind, place, width and height; and of each edge its points and its text."""
    parts = []
    for points, text, (x, y) in placed.edges:
        start, rest = points[0], points[1:]
        curve = "C" + " ".join("%s,%s" % (number(a), number(b)) for a, b in rest) if len(rest) % 3 == 0 else "".join("L%s,%s" % (number(a), number(b)) for a, b in rest)
        parts.append(tag("path", d="M%s,%s%s" % (number(start[0]), number(start[1]), curve), kind="edge") + words(text, x, y, "small middle"))
    for text, kind, x, y, width, height in placed.nodes:
        box = tag("rect", x=float(x - width / 2), y=float(y - height / 2), width=float(width), height=float(height), rx=4, kind="node " + kind)
        parts.append(tag("g", box + words(text, x, y + 4, "middle")))
    return drawing(title, placed.width, placed.height, parts, "tree", "width:%dpx" % placed.width)


# ---- bars over time, curves

PLOT, LEFT, TOP, HIGH, BELOW = 640, 44, 22, 160, 26


def ticks(most):
    """Numbers on an axis up to a number."""
    step = next(it * 10**power for power in range(20) for it in (1, 2, 5) if it * 10**power * 4 >= most)
    return range(0, int(most) + 1, step)


def axes(most_x, most_y, what_x, what_y, first=0):
    """The axes of a plot with their numbers and what they count."""
    parts = [words(what_y, 2, 9, "small"), words(what_x, LEFT + PLOT, TOP + HIGH + BELOW - 2, "small end")]
    for it in ticks(most_y):
        y = TOP + HIGH - HIGH * it / most_y
        parts += [tag("path", d="M%d,%sh%d" % (LEFT, number(y), PLOT), kind="grid"), words(str(it), LEFT - 4, y + 4, "small end")]
    for it in ticks(most_x):
        parts.append(words(str(it + first), LEFT + PLOT * it / max(1, most_x), TOP + HIGH + 12, "small middle"))
    return parts


def bars(title, found, count, what, refused=()):
    """Bars, each with its place among a count, its height and its colour, of which each takes as much of the count; below them marks at some places."""
    most, wide, paths = max([1, *[height for _, height, _ in found]]), PLOT / max(1, len(found) + len(refused)), {}
    for at, height, colour in found:
        paths.setdefault(colour, []).append("M%.2f,%dv-%s" % (LEFT + PLOT * (at - 0.5) / count, TOP + HIGH, number(HIGH * height / most)))
    parts = axes(count, most, what, "bits")
    parts += [tag("path", d="".join(it), kind="bar c%d" % (colour % COLOURS), stroke_width="%.2f" % max(0.3, wide * 0.9)) for colour, it in sorted(paths.items())]
    parts += [tag("path", d="".join("M%.2f,%dv6" % (LEFT + PLOT * (it - 0.5) / count, TOP + HIGH) for it in refused), kind="refused")] if refused else []
    return drawing(title, LEFT + PLOT + 8, TOP + HIGH + BELOW, parts, "plot", "min-width:480px")


def curves(title, series, what_x, what_y, most_y=None):
    """Curves: of each its name, its kind and its points."""
    most_x = max([1, *[x for _, _, points in series for x, _ in points]])
    most_y = most_y or max([1, *[y for _, _, points in series for _, y in points]])
    parts = axes(most_x, most_y, what_x, what_y)
    for name, kind, points in series:
        placed = [(LEFT + PLOT * x / most_x, TOP + HIGH - HIGH * y / most_y) for x, y in points]
        parts.append(tag("path", d="M" + "L".join("%s,%s" % (number(x), number(y)) for x, y in placed), kind="curve " + kind) if placed else "")
        marks = zip(placed, points)
        for (a, b), (x, y) in marks:
            told = tag("title", unbroken("%s: %s at %s" % (name, number(float(y)), x)))
            parts.append(tag("g", told + tag("circle", cx=float(a), cy=float(b), r=4, kind="mark " + kind)))
    return drawing(title, LEFT + PLOT + 8, TOP + HIGH + BELOW, parts, "plot", "min-width:480px")
