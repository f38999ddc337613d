"""A second reading of what `why` prints: of each reason the place, the encoding, the bounds, the reference and the bits, by a profile's text and its normal form.

What isn't known of a filling by this reading (a side that hangs on others, say) is left out: then the bits are looked for in the item or the packet alone."""
import re

from front import definitions, notation
from . import normal
from .searching import Level, NoValue, number, texts

LINE = re.compile(r"([1-9]\d*):([1-9]\d*): ( *)(\w+)\.(\w+|-): (.+)")
ASKED = re.compile(r"asked (\w+) is (\d+:[0-9a-f]*), and ")
NOTHING = "nothing simple stands against it"
NO_VALUE = "this has no value: it divides by 0, or its exponent is below 0"
PARTIAL, FACTORS = {"/", "%", "^"}, {"*", "/", "%", "^"}


def spelled(bits):
    """The bits of a text."""
    count, _, digits = bits.partition(":")
    return "".join(format(int(it, 16), "04b") for it in digits)[:int(count)]


def operands(tokens, at):
    """The offsets at which the operand before an operator may begin, up to the first of a product."""
    while True:
        at, depth = at - 1, 0
        while (depth := depth + (tokens[at].text == ")") - (tokens[at].text == "(")) > 0:
            at -= 1
        if tokens[at - 1].text == ".":
            at -= 2
        yield tokens[at].start
        if tokens[at - 1].text not in FACTORS:
            return
        at -= 1


class Profile:
    """Where the parts of a profile stand, by their method, format and field."""

    def __init__(self, text, methods, initial):
        self.text, self.methods, self.initial = text, methods, initial
        self.tokens = notation.tokens_of(text)
        self.read, self.by_name = normal.Text(text), {it.name: it for it in methods}
        self.names = {it.name: it.start for it in definitions.definitions(self.tokens) if it.kind == "method"}
        self.brackets, self.conditions, self.partial = {}, {}, set()
        for method in self.read.methods:
            self.take(method)

    def place(self, start):
        """The line and the column of an offset."""
        return self.text.count("\n", 0, start) + 1, start - self.text.rfind("\n", 0, start)

    def take(self, method):
        """Notes the brackets, conditions and partial operators of a method's sections."""
        place, body = 0, method.body
        while place < len(body):
            word, begin = body[place].text, notation.after_mark(body, place, "{") - 1
            name = body[place + 1].text if begin > place + 1 else "-"
            after = notation.after_brackets(body, begin)
            part = {"UNCOMPRESSED": "header", "CONTROL": "header", "COMPRESSED": name}.get(word, word)
            for it in filter(None, notation.split(body[begin + 1:after - 1], ";")):
                self.take_statement(method, part, it)
            place = after

    def take_statement(self, method, part, tokens):
        for at, it in enumerate(tokens):
            if it.text in PARTIAL:
                self.partial.update((method.name, start) for start in operands(tokens, at))
        if tokens[0].text == "ENFORCE":
            self.conditions[method.name, self.place(tokens[2].start)] = part, normal.read(tokens[2:-1], self.read.constants, method.parameters)
        elif tokens[-1].text == "]":
            begin = max(at for at, it in enumerate(tokens) if it.text == "[")
            self.brackets[method.name, part, tokens[0].text] = self.place(tokens[begin].start)

    def bracket(self, method, form, field):
        """The places that a field's bracket may have: that of its packed bits, else that of the header, else the method's name."""
        found = [self.brackets.get((method.name, part, field)) for part in (form.shown(), "DEFAULT", "header")]
        return next(filter(None, found), self.place(self.names[method.name]))


class Seen:
    """What is known of a filling of a format: the sides of fields that stand where all before them have one length, and what follows from these and the context."""

    def __init__(self, profile, method, form, path, context, bits, side, asked):
        self.profile, self.method, self.form, self.path, self.context = profile, method, form, path, context
        self.bits, self.side, self.asked = bits, side, asked
        self.upper, self.lower = dict(asked), {}
        fields = [it for it in form.fields if it.part == "header"] if side == "U" else [form.by_name[it] for it in form.listing]
        self.own = self.upper if side == "U" else self.lower
        self.cut(fields)
        for field in form.fields:
            self.derive(field)

    def cut(self, fields):
        """Cuts the fields out of the bits, as long as their lengths are told; `begins` says where each of these stands."""
        self.begins, place = {}, 0
        for field in fields:
            least, most = field.u if self.side == "U" else field.c
            self.begins[field.name] = place
            if self.bits is None or least != most or place + least > len(self.bits):
                return
            self.own[field.name] = self.bits[place:place + least]
            place += least

    def reference(self, field):
        path = self.path + "." + field.name if self.path else field.name
        return None if field.part == "local" else self.context.get(path, self.profile.initial.get(field.name))

    def derive(self, field):
        """The other side of a field, where its encoding tells it."""
        name, *words = field.encoding or ("", "")
        if field.name not in self.form.listing:
            self.lower.setdefault(field.name, "")
        if name == "irregular" and field.name in self.own:
            self.upper.setdefault(field.name, self.own[field.name])
            self.lower.setdefault(field.name, self.own[field.name])
        elif name == "static" and self.reference(field) is not None and self.side == "C":
            self.upper.setdefault(field.name, self.reference(field))
        elif name == "uncompressed_value" and self.side == "C" and (due := self.constant(words)) is not None:
            self.upper.setdefault(field.name, due)
        elif name == "compressed_value":
            self.upper.setdefault(field.name, "")
        elif name == "lsb" and self.side == "C" and field.name in self.lower and self.reference(field) is not None:
            near = [it for it in self.sides(field, "C", self.lower[field.name])]
            if len(near) == 1:
                self.upper.setdefault(field.name, near[0])

    def level(self):
        return Level(self.form, {it: (self.upper[it] if it in self.upper else None, self.lower[it] if it in self.lower else None) for it in {*self.upper, *self.lower}}, {})

    def constant(self, words):
        """The bits of a constant, where its arguments are known."""
        try:
            level = self.level()
            count, value = level.value(words[0]), level.value(words[1])
            return format(value, "0%db" % count) if count and 0 <= value < 1 << count else "" if count == value == 0 else None
        except (KeyError, NoValue, TypeError):
            return None

    def sides(self, field, side, bits):
        """The other sides that go with one, or None where that isn't known."""
        reference, bounds = self.reference(field), field.c if side == "U" else field.u
        width = [len(reference)] if field.encoding[0] == "lsb" and reference is not None and side == "C" else range(bounds[0], min(bounds[1], 9) + 1)
        every = {it for count in width for it in texts(count, count)} | {bits, reference or ""}
        found = []
        for other in every:
            pair = (bits, other) if side == "U" else (other, bits)
            level = self.level()
            level.sides[field.name] = pair
            try:
                if level.fits(field, reference):
                    found.append(other)
            except (KeyError, TypeError):
                return None
        return found

    def due(self, field, side):
        """The one value that a field can have on a side, where it is known."""
        name, *words = field.encoding
        if name == "static" and side == "U":
            return self.reference(field)
        if (name, side) in (("uncompressed_value", "U"), ("compressed_value", "C")):
            return self.constant(words)
        if (name, side) == ("crc", "C"):
            try:
                return self.level().register(*words)
            except (KeyError, NoValue, TypeError):
                return None
        return None


class Reading:
    """Goes over the lines of one refusal, of the top or of the method that is called at a path."""

    def __init__(self, profile, context, bits, side, asked, dead, path=""):
        self.profile, self.context, self.bits, self.side, self.asked, self.dead, self.path = profile, context, bits, side, asked, dead, path
        self.wrong, self.checked, self.inside = [], 0, []

    def line(self, line):
        """Reads a line, and notes what is wrong with it."""
        found = LINE.fullmatch(line)
        if not found or len(found[3]) % 2:
            self.wrong.append(line)
            return
        depth = len(found[3]) // 2
        path, bits = (self.path, self.bits) if depth == 0 else self.inside[depth - 1][1:] if depth <= len(self.inside) else (None, None)
        method = self.profile.by_name.get(found[4])
        form = next((it for it in method.formats if it.shown() == found[5]), None) if method else None
        if form is None or path is None or depth and self.inside[depth - 1][0] != found[4]:
            self.wrong.append(line)
            return
        self.inside = self.inside[:depth]
        place, reason = (int(found[1]), int(found[2])), found[6]
        while asked := ASKED.match(reason):
            if self.asked.get(asked[1]) != spelled(asked[2]):
                self.wrong.append("no such asked value: " + line)
            reason = reason[asked.end():]
        seen = Seen(self.profile, method, form, path, self.context, bits, self.side, self.asked if depth == 0 else {})
        if not self.holds(seen, place, reason):
            self.wrong.append(line)
        self.checked += reason != NOTHING

    def holds(self, seen, place, reason):
        """Whether a reason is one that this reading has, too."""
        if (place, "%s.%s" % (seen.method.name, seen.form.shown()), reason) in self.dead:
            return True
        for pattern, check in KINDS:
            if found := pattern.fullmatch(reason):
                return check(self, seen, place, *found.groups())
        return False

    def at_name(self, seen, place):
        return place == self.profile.place(self.profile.names[seen.method.name])

    def field(self, seen, place, name, encoding=None):
        """The field of a name, where the place is its bracket's and the encoding is its own."""
        field = seen.form.by_name.get(name)
        if field is None or place != self.profile.bracket(seen.method, seen.form, name):
            return None
        named = self.profile.read.methods[field.encoding[1]].name if field.is_called() else field.library()
        return field if encoding in (None, named) else None

    def nothing(self, seen, place):
        return self.at_name(seen, place)

    def length(self, seen, place, count, at, due, _):
        """Too few or too many bits. The bounds of this reading may be wider than those of the program."""
        count, due = int(count), int(due)
        least = seen.form.least() if self.side == "C" else sum(it.u[0] for it in seen.form.fields if it.part == "header")
        is_right = (count < due if at == "least" else count > due) and least <= due <= seen.form.most(self.side)
        return self.at_name(seen, place) and is_right and (seen.bits is None or count == len(seen.bits))

    def cut(self, seen, place, encoding, name, left, due):
        field, left, due = self.field(seen, place, name, encoding), int(left), int(due)
        if field is None or left >= due:
            return False
        least, most = field.u if self.side == "U" else field.c
        begin = seen.begins.get(name)
        return least <= due <= most and (begin is None or seen.bits is None or left == max(0, len(seen.bits) - begin))

    def no_reference(self, seen, place, encoding, name, path):
        field = self.field(seen, place, name, encoding)
        due = seen.path + "." + name if seen.path else name
        return field is not None and encoding in ("static", "lsb") and path == due and seen.reference(field) is None

    def found(self, seen, field, part, bits):
        """Whether bits may be those of a side of a field."""
        side = "U" if part == "header" else "C"
        known = (seen.upper if side == "U" else seen.lower).get(field.name)
        if known is not None:
            return known == bits
        return side != self.side or seen.bits is None or bits in seen.bits

    def differs(self, seen, place, encoding, name, part, bits, due):
        field, bits, due = self.field(seen, place, name, encoding), spelled(bits), spelled(due)
        if field is None or field.is_called() or bits == due or not self.found(seen, field, part, bits):
            return False
        known = seen.due(field, "U" if part == "header" else "C")
        return known in (None, due)

    def no_side(self, seen, place, encoding, name, part, bits):
        field, bits = self.field(seen, place, name, encoding), spelled(bits)
        if field is None or field.is_called() or not self.found(seen, field, part, bits):
            return False
        return not seen.sides(field, "U" if part == "header" else "C", bits)

    def untrue(self, seen, place, figures):
        part, condition = self.profile.conditions.get((seen.method.name, place), (None, None))
        if part not in ("header", "DEFAULT", seen.form.shown()):
            return False
        known = dict(it.rsplit(" is ", 1) for it in figures.split("; ")[1:])
        values = {tuple(name.split(".")) if "." in name else ("parameter", name): int(value) for name, value in known.items()}
        right = all(self.figure(seen, name, value) for name, value in values.items())
        return right and truth(condition, values) is not True

    def figure(self, seen, name, value):
        """Whether a number is that of a side that is known."""
        if name[0] in ("parameter", "THIS"):
            return True
        side = (seen.upper if name[1][0] == "U" else seen.lower).get(name[0])
        return side is None or value == (number(side) if name[1].endswith("VALUE") else len(side))

    def no_length(self, seen, place, name):
        every = [self.profile.brackets.get((seen.method.name, part, name)) for part in (seen.form.shown(), "DEFAULT", "header")]
        return name in seen.form.by_name and place in every

    def no_value(self, seen, place):
        return (seen.method.name, place) in {(method, self.profile.place(start)) for method, start in self.profile.partial}

    def goes_inside(self, seen, place, name, callee):
        field = self.field(seen, place, name, callee)
        if field is None or not field.is_called():
            return False
        self.inside.append((callee, seen.path + "." + name if seen.path else name, seen.own.get(name)))
        return True


def truth(condition, values):
    """Whether a condition is true by these numbers, or None where they don't tell."""
    try:
        return Level(None, {}, {}).truth(filled(condition, values))
    except (KeyError, NoValue):
        return None


def filled(e, values):
    """An expression with the numbers in the places of what has them."""
    if isinstance(e, (int, bool)):
        return e
    if e in values or e[0] == "parameter" or len(e) == 2 and isinstance(e[1], str):
        return values[e]
    return (e[0], *[filled(it, values) for it in e[1:]])


BITS = r"(\d+:[0-9a-f]*)"
KINDS = [(re.compile(pattern), check) for pattern, check in (
    (re.escape(NOTHING), Reading.nothing),
    (r"(\d+) bits are there, and at (least|most) (\d+) (are due|may be)", Reading.length),
    (r"(\w+) of (\w+): (\d+) bits are left, and (\d+) are due", Reading.cut),
    (r"(\w+) of (\w+): the context has no entry ([\w.]+), and INITIAL gives none", Reading.no_reference),
    (r"(\w+) of (\w+): the (header|packet) has %s, and %s is due" % (BITS, BITS), Reading.differs),
    (r"(\w+) of (\w+): the (header|packet) has %s, with which nothing goes" % BITS, Reading.no_side),
    (r"the condition is false((?:; [\w.]+ is -?\d+)*)", Reading.untrue),
    (r"(\w+) has no length here that this bracket has", Reading.no_length),
    (re.escape(NO_VALUE), Reading.no_value),
    (r"nothing goes in (\w+), by no format of (\w+)", Reading.goes_inside))]
