"""The names that a profile's text defines, and which definition or encoding stands first where the one at a fault is the second."""
import collections

from . import notation

HEADED = ("UNCOMPRESSED", "CONTROL")  # sections that encode a field for all formats

# A definition: its kind (constant, method, parameter, format or statement), name, offset, and the number of its method. Of a statement also the number and the
# word of its section, and whether it has an encoding.
Definition = collections.namedtuple("Definition", "kind name start method section word encodes", defaults=(None, None, None))


def definitions(tokens):
    """The definitions of a text that has a tree, in its order."""
    place, method = 0, 0
    while place < len(tokens):
        name, after = tokens[place], place + 1
        if tokens[after].text == "=":
            yield Definition("constant", name.text, name.start, method)
            place = notation.after_mark(tokens, after, ";")
            continue
        yield Definition("method", name.text, name.start, method)
        if tokens[after].text == "(":
            begin, after = after, notation.after_brackets(tokens, after)
            yield from (Definition("parameter", it.text, it.start, method) for it in tokens[begin:after] if it.kind == "name")
        place = notation.after_brackets(tokens, after)
        yield from inside(tokens[after + 1:place - 1], method)
        method += 1


def inside(body, method):
    """The definitions of a method's sections."""
    place = 0
    while place < len(body):
        word, begin = body[place].text, notation.after_mark(body, place, "{") - 1
        yield from (Definition("format", it.text, it.start, method) for it in body[place + 1:begin])
        after = notation.after_brackets(body, begin)
        for it in filter(None, notation.split(body[begin + 1:after - 1], ";")):
            if it[0].text != "ENFORCE":
                yield Definition("statement", it[0].text, it[0].start, method, place, word, [token.text for token in it[1:2]] == ["=:="])
        place = after


def defines_too(first, this):
    """Whether a definition before another of its name stands against that (E21)."""
    if this.kind == "constant":
        return first.kind in ("constant", "parameter")
    if this.kind == "parameter" and first.kind == "constant":
        return True
    if first.kind != this.kind or this.kind != "method" and first.method != this.method:
        return False
    return this.kind != "statement" or (first.section == this.section if this.word == "COMPRESSED" else first.word in HEADED)


def encodes_too(first, this):
    """Whether a statement before another on its field encodes it, too (E24)."""
    if first.kind != this.kind or not first.encodes or first.method != this.method:
        return False
    return first.section == this.section or "INITIAL" not in (first.word, this.word) and (first.word in HEADED or this.word in HEADED)


AGAINST = {"E21": defines_too, "E24": encodes_too}
SAYS = {"E21": "%s is first defined here", "E24": "the first encoding of %s is here"}


def first_of(fault):
    """The first definition or encoding where the one at a fault is the second, or None: of a library method there is none in the text."""
    if fault.code not in AGAINST:
        return None
    every = list(definitions(fault.tokens))
    this = next((it for it in every if it.start == fault.start), None)
    before = [it for it in every if this is not None and it.name == this.name and it.start < this.start]
    return next((it for it in before if AGAINST[fault.code](it, this)), None)


def says(fault):
    """What is said of the first."""
    return SAYS[fault.code] % fault.token()
