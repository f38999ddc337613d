"""The bounds of lengths: of a field's sides in a format, of a format and of a method, by the rules of docs/NOTATION.md (Bounds and ranges). tests/server.py
compares them with what `show` prints."""
import collections

from .. import notation
from .names import HEADED, LISTED, arguments, bracket, called, formats

GREATEST = 2**64  # a value of a bracket above this counts as this
WIDEST = 64  # bits of a side by a library method
ANY, NONE = (0, WIDEST), (0, 0)

Sides = collections.namedtuple("Sides", "uncompressed compressed")  # the least and the greatest bits of either side


class Lengths:
    """The bounds in a text whose names are known."""

    def __init__(self, names):
        self.names, self.known = names, {}
        self.methods = {it.name.text: number for number, it in reversed(list(enumerate(names.methods)))}

    def statements(self, number, words, name=None):
        """The statements of the sections of a method with these words, of a field where one is named."""
        for section in self.names.methods[number].sections:
            if section.word.text in words:
                yield from (it for it in section.statements if name is None or it[0].text == name)

    def fields(self, number, word):
        """The names of the fields of a section of a method, in their order."""
        return [it[0].text for it in self.statements(number, (word,)) if it[0].text != "ENFORCE"]

    def own(self, number, at, name):
        """The statement of a format on a field, or None."""
        return next((it for it in self.names.methods[number].sections[at].statements if it[0].text == name), None)

    def encoding(self, number, at, name):
        """The statement by which a field is encoded in a format, and whether it is one of DEFAULT; or None."""
        own = self.own(number, at, name)
        shared = [it for it in self.statements(number, HEADED, name) if len(it) > 2 and it[1].text == "=:="]
        if shared or own is not None and len(own) > 2 and own[1].text == "=:=":
            return (shared or [own])[0], False
        default = next((it for it in self.statements(number, ("DEFAULT",), name) if len(it) > 2), None)
        return (default, True) if default is not None else (None, False)

    def field(self, number, at, name):
        """The bounds of a field in a format."""
        statement, is_default = self.encoding(number, at, name)
        uncompressed, compressed = self.encoded(statement) if statement is not None else Sides(ANY, NONE)
        own = self.own(number, at, name)
        for it in self.statements(number, HEADED, name):
            uncompressed = self.narrowed(uncompressed, it)
        if own is None:
            return Sides(uncompressed, NONE)
        for it in [own] + [statement] * is_default:
            compressed = self.narrowed(compressed, it)
        return Sides(uncompressed, compressed)

    def encoded(self, statement):
        """The bounds that the encoding of a statement gives."""
        if statement[2].kind == "bits":
            count = len(statement[2].text) - 2
            return Sides(NONE, (count, count))
        name, given = called(statement), arguments(statement)
        if name is None:
            return Sides(ANY, ANY)
        if name.text in self.methods:
            return self.method(self.methods[name.text])
        said = notation.number(given[0], self.names.values) if given else None
        exact = (said, said) if said is not None and 0 <= said <= WIDEST else ANY
        return {"uncompressed_value": Sides(exact, NONE), "compressed_value": Sides(NONE, exact), "irregular": Sides(exact, exact), "static": Sides(ANY, NONE),
                "lsb": Sides(ANY, exact), "crc": Sides(NONE, exact)}.get(name.text, Sides(ANY, ANY))

    def narrowed(self, bounds, statement):
        """Bounds that a bracket of constants narrows."""
        inside = bracket(statement)
        if inside is None:
            return bounds
        values = [notation.number(it, self.names.values) for it in notation.split(inside, ",")]
        if not values or None in values:
            return bounds
        values = [min(max(it, 0), GREATEST) for it in values]
        return max(bounds[0], min(values)), min(bounds[1], max(values))

    def format(self, number, at):
        """The bounds of a format: its header, and its packed bits."""
        header = [self.field(number, at, it).uncompressed for it in self.fields(number, "UNCOMPRESSED")]
        listed = [it[0].text for it in self.names.methods[number].sections[at].statements if it[0].text != "ENFORCE"]
        return Sides(summed(header), summed([self.field(number, at, it).compressed for it in listed]))

    def method(self, number):
        """The bounds of a method. One that leads back to itself, or has no format, has any."""
        if number not in self.known:
            self.known[number] = Sides(ANY, ANY)
            every = [self.format(number, at) for at in formats(self.names.methods[number])]
            if every:
                self.known[number] = Sides(*[(min(it[side][0] for it in every), max(it[side][1] for it in every)) for side in (0, 1)])
        return self.known[number]


def summed(bounds):
    return sum(it[0] for it in bounds), sum(it[1] for it in bounds)


def shown(bounds):
    """Bounds in words."""
    least, most = bounds
    return "%d bit%s" % (most, "" if most == 1 else "s") if least == most else "%d to %d bits" % (least, most)


def parts(lengths, number):
    """Each field of a method with its part: header, control, or local with the formats that list it."""
    found = {}
    for word, part in (("UNCOMPRESSED", "header"), ("CONTROL", "control"), (LISTED, "local")):
        for it in lengths.fields(number, word):
            found.setdefault(it, part)
    return found
