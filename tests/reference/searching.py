"""A slow search for the fillings of a profile's normal form (docs/NOTATION.md, docs/DEFINITIONS.md), apart from the program: every format, every length within the bounds, every value of each side.

Bits are texts of 0 and 1. Only small profiles end in time, of which each side that the header doesn't hold has at most 9 bits."""
import functools
import itertools

from .reading import Field


class NoValue(Exception):
    pass


def spelled(count, number):
    if not 0 <= count <= 64 or not 0 <= number < 1 << count:
        raise NoValue
    return format(number, "0%db" % count) if count else ""


def number(bits):
    return int(bits, 2) if bits else 0


class Level:
    """The sides of a format's fields, by name, and the values of the method's parameters."""

    def __init__(self, form, sides, arguments):
        self.form, self.sides, self.arguments = form, sides, arguments

    def joined(self, side):
        names = [it.name for it in self.form.fields if it.part == "header"] if side == "U" else self.form.listing
        return "".join(self.sides[it]["UC".index(side)] for it in names)

    def bits(self, subject, side):
        return self.joined(side) if subject == "THIS" else self.sides[subject]["UC".index(side)]

    def value(self, e):
        if isinstance(e, int):
            return e
        if e[0] == "parameter":
            return self.arguments[e[1]]
        if e[0] == "-" and len(e) == 2:
            return -self.value(e[1])
        if len(e) == 2:
            bits = self.bits(e[0], e[1][0])
            return number(bits) if e[1].endswith("VALUE") else len(bits)
        left, right = self.value(e[1]), self.value(e[2])
        if (e[0] in "/%" and right == 0) or (e[0] == "^" and right < 0):
            raise NoValue
        if e[0] in "/%":
            return left // right if e[0] == "/" else left % right
        return left ** right if e[0] == "^" else {"+": left + right, "-": left - right, "*": left * right}[e[0]]

    def truth(self, condition):
        """Of a condition; both sides of `&&` and `||` need a value."""
        if isinstance(condition, bool):
            return condition
        if condition[0] == "!":
            return not self.truth(condition[1])
        if condition[0] in ("&&", "||"):
            left, right = self.truth(condition[1]), self.truth(condition[2])
            return left and right if condition[0] == "&&" else left or right
        operator, left, right = condition
        left, right = self.value(left), self.value(right)
        return {"==": left == right, "!=": left != right, "<=": left <= right, ">=": left >= right, "<": left < right, ">": left > right}[operator]

    def holds(self, constraint):
        if constraint[0] == "bracket":
            _, field, side, lengths = constraint
            return len(self.bits(field, side)) in [self.value(it) for it in lengths]
        try:
            return self.truth(constraint[1])
        except NoValue:
            return False

    def fits(self, field, reference):
        """Whether the two sides of a field that calls nothing are as its encoding says."""
        upper, lower = self.sides[field.name]
        if field.encoding is None:
            return lower == ""
        name, *words = field.encoding
        if len(upper) > 64 or len(lower) > 64:
            return False
        try:
            if name == "irregular":
                return upper == lower and len(upper) == self.value(words[0])
            if name == "static":
                return lower == "" and upper == reference
            if name == "uncompressed_value":
                return lower == "" and upper == spelled(self.value(words[0]), self.value(words[1]))
            if name == "compressed_value":
                return upper == "" and lower == spelled(self.value(words[0]), self.value(words[1]))
            if name == "lsb":
                return reference is not None and self.is_near(upper, lower, reference, self.value(words[0]), self.value(words[1]))
            return upper == "" and lower == self.register(*words)
        except NoValue:
            return False

    def is_near(self, upper, lower, reference, count, offset):
        width = len(reference)
        if len(upper) != width or not 0 <= count <= width:
            return False
        return (number(upper) - number(reference) + offset) % (1 << width) < 1 << count and lower == upper[width - count:]

    def register(self, bits, polynomial, initial, data, length):
        bits, polynomial, register = self.value(bits), self.value(polynomial), self.value(initial)
        covered = self.bits(data[0], data[1][0])
        if len(covered) % 8 or len(covered) != self.value(length):
            raise NoValue
        for start in range(0, len(covered), 8):
            for bit in reversed(covered[start:start + 8]):
                register = register >> 1 ^ (polynomial if (register ^ int(bit)) & 1 else 0)
        return spelled(bits, register)


@functools.lru_cache(None)
def texts(least, most):
    """All texts of bits of these lengths, of up to 9 bits."""
    return ["".join(bits) for count in range(least, min(most, 9) + 1) for bits in itertools.product("01", repeat=count)]


def splits(bits, bounds):
    """The ways to part bits into texts whose lengths are within bounds."""
    if not bounds:
        if bits == "":
            yield []
        return
    (least, most), *others = bounds
    for end in range(least, min(most, len(bits)) + 1):
        for rest in splits(bits[end:], others):
            yield [bits[:end]] + rest


def is_early(e):
    """Whether an expression, a condition or a list of lengths has a value by the uncompressed sides alone."""
    if isinstance(e, (int, bool)) or e[0] == "parameter":
        return True
    if len(e) == 2 and isinstance(e[1], str):
        return e[1][0] == "U"
    return all(map(is_early, e[1:]))


@functools.lru_cache(None)
def parted(form):
    """The constraints of a format that hang on uncompressed sides alone, and the others."""
    early = [it for it in form.constraints if (it[2] == "U" and all(map(is_early, it[3])) if it[0] == "bracket" else is_early(it[1]))]
    return early, [it for it in form.constraints if it not in early]


@functools.lru_cache(None)
def lower_sides(encoding, upper, bounds, reference):
    """The compressed sides that a field can have, where its encoding has numbers alone, so that this hangs on no other field."""
    field = Field("", "local", encoding)
    return [bits for bits in texts(*bounds) if Level(None, {"": (upper, bits)}, {}).fits(field, reference)]


class Filling:
    def __init__(self, index, level, inner, entries):
        self.index, self.level, self.inner, self.entries = index, level, inner, entries
        self.header, self.packed = level.joined("U"), level.joined("C")

    def code(self, methods, k, plans):
        """The index of the format, and what each choose and call step of its write plan chose."""
        code = [self.index]
        for step in plans[k][self.index]:
            if step[0] == "choose":
                code.append(number(self.level.bits(step[1], "U")))
            if step[0] == "call":
                callee = self.level.form.by_name[step[1]].encoding[1]
                code += self.inner[step[1]].code(methods, callee, plans)
        return code


class Search:
    """The fillings that fit a method of the methods, in a context, for a header; `initial` has the values of INITIAL by field name."""

    def __init__(self, methods, context, initial):
        self.methods, self.context, self.initial = methods, context, initial

    def reference(self, field, path):
        return None if field.part == "local" else self.context.get(path, self.initial.get(field.name))

    @functools.lru_cache(None)
    def inside(self, k, arguments, path, header):
        return list(self.fillings(k, arguments, path, header, {}))

    def fillings(self, k, arguments, path, header, asked):
        """Those with this header, and with these values of the asked fields."""
        method = self.methods[k]
        values = dict(zip(method.parameters, arguments))
        for index, form in enumerate(method.formats):
            heads = [it for it in form.fields if it.part == "header"]
            others = [it for it in form.fields if it.part != "header"]
            for parts in splits(header, [it.u for it in heads]):
                upper = dict(zip([it.name for it in heads], parts))
                for free in itertools.product(*([asked[it.name]] if it.asked else texts(*it.u) for it in others)):
                    yield from self.lower(index, form, values, path, {**upper, **dict(zip([it.name for it in others], free))})

    def lower(self, index, form, values, path, upper):
        """The compressed sides, field by field: each that may be, and the whole tested at the end."""
        inner_path = lambda name: path + "." + name if path else name
        names, choices, (early, late) = [it.name for it in form.fields], [], parted(form)
        known = Level(form, {name: (bits, None) for name, bits in upper.items()}, values)
        if not all(map(known.holds, early)):
            return
        for it in form.fields:
            choices.append(list(self.sides(form, it, known, inner_path(it.name), upper)))
            if not choices[-1]:
                return
        for chosen in itertools.product(*choices):
            sides = {name: (upper[name], it[0]) for name, it in zip(names, chosen)}
            level = Level(form, sides, values)
            called = {name: it[1] for name, it in zip(names, chosen) if it[1]}
            inner = {name: it[0] for name, it in called.items()}
            if self.agrees(form, level, called, inner_path) and all(map(level.holds, late)):
                entries = []
                for field in form.fields:
                    if field.part != "local":
                        entries.append((inner_path(field.name), upper[field.name]))
                    if field.name in inner:
                        entries += inner[field.name].entries
                yield Filling(index, level, inner, entries)

    def sides(self, form, field, known, path, upper):
        if field.name not in form.listing:
            yield "", None
        elif field.is_called():
            for arguments in self.arguments(field, known):
                for it in self.inside(field.encoding[1], arguments, path, upper[field.name]):
                    yield it.packed, (it, list(arguments))
        else:
            is_alone = all(isinstance(it, int) for it in field.encoding[1:])
            for bits in lower_sides(field.encoding, upper[field.name], field.c, self.reference(field, path)) if is_alone else texts(*field.c):
                yield bits, None

    def arguments(self, field, known):
        """The values that the arguments of a call may have: where they hang on what is not known yet, all that small parameters can be."""
        _, callee, arguments = field.encoding
        ranges = [range(least, most + 1) for least, most in self.methods[callee].parameters.values()]
        try:
            values = [known.value(it) if is_early(it) else None for it in arguments]
        except NoValue:
            return []
        return [it for it in itertools.product(*ranges) if all(due in (None, value) for due, value in zip(values, it))]

    def agrees(self, form, level, called, inner_path):
        for field in form.fields:
            if field.is_called():
                if [level.value(it) for it in field.encoding[2]] != called[field.name][1]:
                    return False
            elif not level.fits(field, self.reference(field, inner_path(field.name))):
                return False
        return True
