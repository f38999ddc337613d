"""Small profiles of one method, drawn by a fixed seed: each with its text and its normal form, both made from the same choices.

Those of `referring` have fields of two bits and formats that often only a reference tells apart, and conditions with a remainder."""
import random

from .reading import Field, Format, Method
from .samples import bracket, enforce

COUNT = 200
REFERRING = 100

# the encoding of the header field x or y, whose other one is {other}: its text, its normal form, the bounds of its compressed length, whether it has a bracket
ENCODINGS = [
    ("irregular(8)", ("irregular", 8), (8, 8), True),
    ("irregular(8)", ("irregular", 8), (8, 8), False),
    ("static", ("static",), (0, 0), True),
    ("lsb(4, 1)", ("lsb", 4, 1), (4, 4), True),
    ("lsb(m.UVALUE, 0)", ("lsb", ("m", "UVALUE"), 0), (0, 64), False),
    ("uncompressed_value(8, 5)", ("uncompressed_value", 8, 5), (0, 0), False),
    ("uncompressed_value(8, {other}.UVALUE + 1)", ("uncompressed_value", 8, ("+", ("{other}", "UVALUE"), 1)), (0, 0), False),
    ("uncompressed_value(8, m.UVALUE)", ("uncompressed_value", 8, ("m", "UVALUE")), (0, 0), False),
    None,
]

# that of the control field m
CONTROLS = [
    ("irregular(4)", ("irregular", 4), (4, 4), True),
    ("static", ("static",), (0, 0), False),
    ("irregular(x.UVALUE)", ("irregular", ("x", "UVALUE")), (0, 64), False),
    None,
]

# a condition on them: its text and its normal form
CONDITIONS = [
    ("x.UVALUE == y.UVALUE", enforce("==", ("x", "UVALUE"), ("y", "UVALUE"))),
    ("m.UVALUE == 3", enforce("==", ("m", "UVALUE"), 3)),
    ("7 == y.UVALUE", enforce("==", 7, ("y", "UVALUE"))),
    ("m.ULENGTH == 4", enforce("==", ("m", "ULENGTH"), 4)),
    ("x.UVALUE != 1", enforce("!=", ("x", "UVALUE"), 1)),
    None,
    None,
]

LITERALS = ["0", "1", "10", "11", "110"]

# the encodings of the fields of the profiles that refer: the bits of the uncompressed side, some of them, none, or a number
SENT, NEAR, KEPT = [(text, form, (size, size), True) for text, form, size in (("irregular(2)", ("irregular", 2), 2), ("lsb(1, 0)", ("lsb", 1, 0), 1), ("static", ("static",), 0))]
THREE = ("uncompressed_value(2, 3)", ("uncompressed_value", 2, 3), (0, 0), True)
SHORT = {"x": [SENT, SENT, NEAR, None, None], "y": [SENT, SENT, KEPT], "m": [KEPT, KEPT, SENT, SENT, THREE], "s": [SENT, SENT, NEAR, None, None]}

# what tells three formats apart
DISCRIMINATORS = {"a": "0", "b": "10", "c": "11"}


def filled(form, other):
    """The normal form of an expression with the other field's name."""
    return other if form == "{other}" else tuple(filled(it, other) for it in form) if isinstance(form, tuple) else form


class Drawn:
    """A format that grows by what it lists."""

    def __init__(self, name, base):
        self.name, self.text, self.listing, self.fields, self.constraints = name, [], [], {}, list(base)

    def lists(self, name, chosen, other):
        if chosen is None:
            return
        text, form, bounds, has_bracket = chosen
        self.text.append("%s =:= %s%s;" % (name, text.format(other=other), " [%d]" % bounds[0] if has_bracket else ""))
        self.listing.append(name)
        self.fields[name] = (filled(form, other), bounds)
        if has_bracket:
            self.constraints.append(bracket(name, "C", bounds[0]))

    def enforces(self, condition):
        self.text.append("ENFORCE(%s);" % condition[0])
        self.constraints.append(condition[1])

    def format(self, is_asked):
        return self.of([("x", "header", 8, False), ("y", "header", 8, False), ("m", "control", 4, is_asked)], {})

    def of(self, declared, kept):
        """The format, of header and control fields with their names, parts and widths, and whether they are asked; `kept` has the encodings of CONTROL."""
        def field(name, part, width, asked):
            encoding, bounds = self.fields.get(name) or kept.get(name, (None, (0, 0)))
            return Field(name, part, encoding, (width, width), bounds, asked)

        fields, names = [field(*it) for it in declared], [it[0] for it in declared]
        fields += [Field(it, "local", self.fields[it][0], (0, 0), self.fields[it][1]) for it in self.listing if it not in names]
        return Format(self.name, fields, self.listing, self.constraints)


def draw(choices):
    """One profile: its text, and its methods."""
    base = [bracket("x", "U", 8), bracket("y", "U", 8), bracket("m", "U", 4)]
    condition = choices.choice(CONDITIONS)
    control = "m [4];" + (" ENFORCE(%s);" % condition[0] if condition else "")
    base += [condition[1]] if condition else []
    is_asked = not condition or ("m", "UVALUE") not in condition[1][1]
    formats = []
    for name in ["a", "b", "c"][: choices.choice([1, 2, 2, 3])]:
        drawn = Drawn(name, base)
        listed = [("x", choices.choice(ENCODINGS), "y"), ("y", choices.choice(ENCODINGS), "x"), ("m", choices.choice(CONTROLS), "x")]
        bits = DISCRIMINATORS[name] if choices.random() < 0.6 else choices.choice(LITERALS)
        listed.append(("d", ("'%s'" % bits, ("compressed_value", len(bits), int(bits, 2)), (len(bits), len(bits)), True), "x"))
        choices.shuffle(listed)
        for it in sorted(listed, key=lambda it: it[0] != "d" if choices.random() < 0.8 else 0):
            drawn.lists(*it)
        formats.append(drawn)
    text = "p {\n  UNCOMPRESSED { x [8]; y [8]; }\n  CONTROL { %s }\n" % control
    text += "".join("  COMPRESSED %s { %s }\n" % (it.name, " ".join(it.text)) for it in formats) + "}\n"
    return text, [Method("p", {}, [it.format(is_asked) for it in formats])]


def value(name):
    return name + ".UVALUE", (name, "UVALUE")


def number(it):
    return str(it), it


def joined(operator, left, right):
    return "%s %s %s" % (left[0], operator, right[0]), (operator, left[1], right[1])


def condition_of(operator, left, right, choices):
    """A condition of two expressions, either way round."""
    text, form = joined(operator, *choices.choice([(left, right), (right, left)]))
    return text, ("enforce", form)


def refers(name, operator, it, choices):
    return condition_of(operator, value(name), number(it), choices)


def remains(choices):
    """A condition with a remainder of a sum, by just as many as two bits have values, one less or one more."""
    solved, other = choices.choice(["xs", "sx", "ys", "xy", "xm"])
    more = choices.choice([number(1), number(-3), value("m"), value("y" if solved != "y" else "x")])
    text, form = joined("+", *choices.choice([(value(solved), more), (more, value(solved))]))
    left = joined("%", ("(%s)" % text, form), number(choices.choice([4, 4, 4, 3, 5])))
    return condition_of("==", left, choices.choice([value(other), value(other), joined("+", value(other), number(2)), number(1)]), choices)


def tells(name, choices):
    """Conditions of three formats, of which those of the first two can't both hold for one reference of the field."""
    first, second = choices.sample([0, 0, 1, 2, 3, 4, -1], 2)
    told = [[refers(name, "==", first, choices)], [choices.choice([refers(name, "!=", first, choices), refers(name, "==", second, choices)])], []]
    if choices.random() < 0.3:
        told[2] = [refers(name, choices.choice(["==", "!="]), second, choices)]
    return told


def tag(bit):
    return ("d", ("'%s'" % bit, ("compressed_value", 1, int(bit)), (1, 1), True), "m")


def draw_format(name, base, encodings, conditions, choices):
    """A format that begins with a tag, mostly 1 for c and 0 for others; its encodings and conditions come in any order."""
    drawn, is_usual = Drawn(name, base), choices.random() < 0.95
    parts = [(drawn.lists, (it, chosen, "m")) for it, chosen in encodings.items()] + [(drawn.enforces, (it,)) for it in conditions]
    choices.shuffle(parts)
    drawn.lists(*tag("1" if (name == "c") == is_usual else "0"))
    for adds, words in parts:
        adds(*words)
    return drawn


def draw_referring(choices):
    """One profile that refers: its text, its methods, and the values of INITIAL."""
    kept, control, base = {}, ["m [2];", "s [2];"], [bracket(it, "U", 2) for it in "xyms"]
    if choices.random() < 0.2:
        kept, control[0] = {"m": (("static",), (0, 0))}, "m =:= static [2];"
    tied = remains(choices) if choices.random() < 0.5 else None
    if tied:
        control.append("ENFORCE(%s);" % tied[0])
        base.append(tied[1])
    referred, formats = choices.choice("mmy"), []
    for name, conditions in list(zip("abc", tells(referred, choices)))[: choices.choice([1, 2, 3, 3])]:
        encodings = {it: choices.choice([it for it in SHORT[it] if it or tied]) for it in "xyms" if it not in kept}
        if referred in encodings and name != "c" and choices.random() < 0.9:
            encodings[referred] = KEPT
        formats.append(draw_format(name, base, encodings, conditions + ([remains(choices)] if choices.random() < 0.2 else []), choices))
    initial = {it: format(choices.randrange(4), "02b") for it in "my" if choices.random() < 0.5}
    asked = [it for it in "ms" if it not in kept and not (tied and (it, "UVALUE") in tied[1][1])]
    declared = [(it, "header" if it in "xy" else "control", 2, it in asked) for it in "xyms"]
    text = "p {\n  UNCOMPRESSED { x [2]; y [2]; }\n  CONTROL { %s }\n" % " ".join(control)
    text += "  INITIAL { %s }\n" % " ".join("%s =:= uncompressed_value(2, %d);" % (it, int(bits, 2)) for it, bits in initial.items())
    text += "".join("  COMPRESSED %s { %s }\n" % (it.name, " ".join(it.text)) for it in formats) + "}\n"
    return text, [Method("p", {}, [it.of(declared, kept) for it in formats])], initial


def profiles():
    choices = random.Random(4997)
    return [draw(choices) for _ in range(COUNT)]


def referring():
    choices = random.Random(5225)
    return [draw_referring(choices) for _ in range(REFERRING)]
