"""A reading of small profiles for the slow search (searching.py): the normal form of a text without faults, with bounds that may be wider than the program's. It takes the constructs of the stored
cases; of others it raises KeyError or ValueError."""

from front import expressions, notation
from .reading import Field, Format, Method

WIDEST = 64


def form(tree, constants, parameters):
    """A tree in the form of searching.py, where names are constants and parameters."""
    mark, *inner = tree
    if mark == "number":
        return int(inner[0], 0)
    if mark == "truth":
        return inner[0] == "true"
    if mark == "of":
        return tuple(inner)
    if mark == "name":
        return ("parameter", inner[0]) if inner[0] in parameters else constants[inner[0]]
    formed = [form(it, constants, parameters) for it in inner]
    return -formed[0] if mark == "-" and len(formed) == 1 else (mark, *formed)


def read(tokens, constants, parameters):
    """The expression or the condition of some tokens, in the form of searching.py."""
    return form(expressions.whole(tokens), constants, parameters)


def split(tokens, mark):
    """The lists between such marks outside of brackets."""
    found, depth = [[]], 0
    for it in tokens:
        depth += (it.text in notation.OPEN) - (it.text in notation.CLOSED)
        if it.text == mark and depth == 0:
            found.append([])
        else:
            found[-1].append(it)
    return [it for it in found if it]


class Text:
    """A profile: its constants, and its methods by their numbers."""

    def __init__(self, text):
        self.methods, constants = notation.methods_and_constants(notation.tokens_of(text))
        self.constants, self.numbers = {}, {it.name: place for place, it in enumerate(self.methods)}
        for name, tokens in constants:
            self.constants[name] = read(tokens, self.constants, ())

    def expressions(self, tokens, parameters):
        return [read(it, self.constants, parameters) for it in split(tokens, ",")]

    def encoding(self, tokens, parameters):
        """A library method or a call, as searching.py has it."""
        name = tokens[0].text
        if name.startswith("'"):
            bits = name.strip("'")
            return ("compressed_value", len(bits), int(bits, 2) if bits else 0)
        arguments = self.expressions(tokens[2:-1], parameters) if len(tokens) > 1 else []
        return (name, *arguments) if name in notation.LIBRARY else ("call", self.numbers[name], arguments)

    def statement(self, tokens, parameters):
        """The name, the encoding and the lengths of a statement, or its condition."""
        if tokens[0].text == "ENFORCE":
            return "ENFORCE", read(tokens[2:-1], self.constants, parameters), None
        end = next((place for place, it in enumerate(tokens) if it.text == "["), len(tokens))
        lengths = self.expressions(tokens[end + 1:-1], parameters) if end < len(tokens) else None
        return tokens[0].text, self.encoding(tokens[2:end], parameters) if end > 1 else None, lengths

    def sections(self, method):
        """Of each section its word, its name and its statements."""
        place = 0
        while place < len(method.body):
            word, begin = method.body[place].text, notation.after_mark(method.body, place, "{")
            after = notation.after_brackets(method.body, begin - 1)
            name = method.body[place + 1].text if begin > place + 2 else ""
            yield word, name, [self.statement(it, method.parameters) for it in split(method.body[begin:after - 1], ";")]
            place = after


def constraints(statements, side):
    """The brackets and conditions of a section."""
    for name, what, lengths in statements:
        if name == "ENFORCE":
            yield "enforce", what
        elif lengths is not None:
            yield "bracket", name, side, lengths


def bounds(lengths):
    known = lengths if lengths and all(isinstance(it, int) for it in lengths) else [0, WIDEST]
    return min(known), max(known)


def sides(part, encoding, upper, lower):
    """Bounds on both lengths, by brackets and the encoding."""
    told = encoding[1] if encoding and encoding[0] in ("irregular", "compressed_value", "lsb", "crc") and isinstance(encoding[1], int) else None
    c = (0, 0) if encoding is None or encoding[0] in ("static", "uncompressed_value") else bounds(lower) if lower else (told, told) if told is not None else (0, WIDEST)
    if part != "local":
        return bounds(upper), c
    return ((0, 0) if encoding and encoding[0] in ("compressed_value", "crc") else c), c


def formats(text, method):
    """The formats of a method, and its values of INITIAL."""
    parts = {"UNCOMPRESSED": [], "CONTROL": [], "DEFAULT": [], "INITIAL": []}
    listed = []
    for word, name, statements in text.sections(method):
        if word == "COMPRESSED":
            listed.append((name, statements))
        else:
            parts[word] += statements
    initial = {name: format(encoding[2], "0%db" % encoding[1]) for name, encoding, _ in parts["INITIAL"]}
    shared = {name: (part, encoding, lengths) for word, part in (("UNCOMPRESSED", "header"), ("CONTROL", "control")) for name, encoding, lengths in parts[word] if name != "ENFORCE"}
    default = {name: (encoding, lengths) for name, encoding, lengths in parts["DEFAULT"] if name != "ENFORCE"}
    return [one_format(name, statements, shared, default, parts) for name, statements in listed], initial


def one_format(name, statements, shared, default, parts):
    own = {it: (encoding, lengths) for it, encoding, lengths in statements if it != "ENFORCE"}
    names = [*shared, *(it for it in own if it not in shared)]
    found, more = [], []
    for it in names:
        part, given, upper = shared.get(it, ("local", None, None))
        encoding, lower = own.get(it, (None, None))
        if encoding is None and given is not None:
            encoding = given
        elif encoding is None and it in default:
            encoding = default[it][0]
            if default[it][1] is not None and lower is None:
                more.append(("bracket", it, "C", default[it][1]))
        found.append(Field(it, part, encoding, *sides(part, encoding, upper, lower)))
    kept = [*constraints(parts["UNCOMPRESSED"], "U"), *constraints(parts["CONTROL"], "U"), *constraints(statements, "C"), *more]
    kept += [("enforce", what) for word, what, _ in parts["DEFAULT"] if word == "ENFORCE"]
    return Format(name, found, [it for it in own if it != "ENFORCE"], kept)


def value_range(argument, fields):
    """Numbers between which an argument lies."""
    if isinstance(argument, int):
        return argument, argument
    if len(argument) == 2 and argument[0] in fields and argument[1].endswith("VALUE"):
        it = fields[argument[0]]
        return 0, (1 << (it.u if argument[1][0] == "U" else it.c)[1]) - 1
    raise ValueError(argument)


def methods_of(profile, top):
    """The methods of a text up to the top, the top last, and the values of INITIAL; the parameters have the ranges that calls give."""
    text = Text(profile)
    read = [(it, *formats(text, it)) for it in text.methods]
    methods = [Method(it.name, {name: None for name in it.parameters}, forms) for it, forms, _ in read]
    initial = {name: bits for _, _, values in read for name, bits in values.items()}
    if methods[-1].name != top:
        raise ValueError(top)
    for caller in methods:
        for form in caller.formats:
            for field in form.fields:
                if field.is_called():
                    callee = methods[field.encoding[1]]
                    for name, argument in zip(callee.parameters, field.encoding[2]):
                        low, high = value_range(argument, form.by_name)
                        least, most = callee.parameters[name] or (low, high)
                        callee.parameters[name] = min(low, least), max(high, most)
    return methods, initial


