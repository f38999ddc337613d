"""Reads the tokens of a profile by the grammar of docs/FORMATS.md, to say what might stand where it can't go on. The program alone judges a text."""
from . import notation
from .expressions import Reader, Stop

MENDING = (";", "}", ")", "]", "=:=", ",", "{", "(", "[", "=")
ITEM = "a field"


class Profiles(Reader):
    """Goes over the tokens of a whole profile."""

    def rest(self, depth, word):
        """Reads on from where so many brackets `{` are open, in a section of this word."""
        if depth > 1:
            self.inside(self.bound if word in ("INITIAL", "DEFAULT") else self.item)
        if depth > 0:
            self.sections()
        elif self.place and self.tokens[self.place - 1].text == "}":
            self.may((";",))
        self.file()

    def file(self):
        while self.sees_kind("name", "a constant or a method"):
            self.step()
            if self.may(("=",)):
                self.expression()
                self.must((";",))
            else:
                self.method()
        if self.place < len(self.tokens):
            raise Stop

    def method(self):
        if self.may(("(",)):
            if not self.may((")",)):
                self.must_kind("name", "a name")
                while self.may((",",)):
                    self.must_kind("name", "a name")
                self.must((")",))
        self.must(("{",))
        self.sections()

    def sections(self):
        while not self.may(("}",)):
            self.section()
        self.may((";",))

    def section(self):
        if self.may(("INITIAL", "DEFAULT")):
            self.statements(self.bound)
        elif self.may(("COMPRESSED",)):
            if self.sees_kind("name", "a name"):
                self.step()
            self.statements(self.item)
        else:
            self.must(("UNCOMPRESSED", "CONTROL"))
            self.statements(self.item)

    def statements(self, one):
        self.must(("{",))
        self.inside(one)

    def inside(self, one):
        while not self.may(("}",)):
            one()

    def item(self):
        if self.may(("ENFORCE",)):
            self.must(("(",))
            self.expression()
            self.must((")",))
        else:
            self.must_kind("name", ITEM)
            if self.may(("=:=",)):
                self.encoding()
            self.bracket()
        self.must((";",))

    def bound(self):
        self.must_kind("name", ITEM)
        self.must(("=:=",))
        self.encoding()
        self.bracket()
        self.must((";",))

    def encoding(self):
        if self.sees_kind("bits", "a bit text"):
            self.step()
            return
        self.must_kind("name", "a method")
        if self.may(("(",)) and not self.may((")",)):
            self.listed(")")

    def bracket(self):
        if self.may(("[",)):
            if self.may(("VARIABLE",)):
                self.must(("]",))
            else:
                self.listed("]")

    def listed(self, end):
        self.expression()
        while self.may((",",)):
            self.expression()
        self.must((end,))


def begin(tokens, place):
    """Where the last definition, section or statement before a place begins, up to which all can be read: its place, how many brackets `{` stand round it, and
    the word of the section."""
    found, depth, word = (0, 0, None), 0, None
    for at in range(place):
        text = tokens[at].text
        if depth == 1 and text in notation.SECTIONS:
            word = text
        depth += (text == "{") - (text == "}")
        if text in ("{", "}", ";"):
            found = at + 1, depth, word
    return found


def stops(tokens, place):
    """The place at which tokens can't go on, and what might stand there; None where all is read. Up to a place before which they can it isn't looked closely."""
    start, depth, word = begin(tokens, place)
    reader = Profiles(tokens, start)
    try:
        reader.rest(depth, word)
    except (Stop, RecursionError):
        return reader.place, reader.expected
    return None


def missing(tokens, place):
    """The mark whose want would explain best that tokens stop at a place: with it most of the rest is read, and more than itself. None where none is."""
    start = begin(tokens, place)[0]

    def reached(mark):
        stopped = stops([*tokens[:place], notation.Token("mark", mark, 0), *tokens[place:]], start)
        return len(tokens) + 2 if stopped is None else stopped[0]
    reaches = list(map(reached, MENDING))
    best = max(reaches)
    return MENDING[reaches.index(best)] if best > place + (2 if place < len(tokens) else 1) else None
