"""The parts of a profile's text and the names in it, also where the text is broken: what each name stands for, and where else that is named. The program alone
judges a text."""
import bisect
import collections

from .. import notation
from ..tokens import RESERVED, SECTIONS, tokens_of

HEADED = ("UNCOMPRESSED", "CONTROL")
LISTED = "COMPRESSED"

Constant = collections.namedtuple("Constant", "name tokens start end")
Method = collections.namedtuple("Method", "name parameters sections start end")
Section = collections.namedtuple("Section", "word name statements start end")

# A name in the text: its kind (constant, method, library, format, field, parameter), where it begins, and whether it is defined there. Of parameters, fields
# and formats also the number of their method; of fields that a format alone has, and of formats, the number of the section.
Use = collections.namedtuple("Use", "kind name start defines method section", defaults=(False, None, None))


def is_name(token):
    """Whether a token is a name that may be given to something."""
    return token.kind == "name" and token.text not in RESERVED


def end_of(token):
    return token.start + len(token.text)


class Outliner:
    """Goes over tokens once. What can't be read is left out; a word of a section inside of another one ends that."""

    def __init__(self, tokens):
        self.tokens, self.place = tokens, 0

    def text(self, away=0):
        """The text of the next token, or of one after it."""
        at = self.place + away
        return self.tokens[at].text if at < len(self.tokens) else ""

    def step(self):
        self.place += 1
        return self.tokens[self.place - 1]

    def last(self):
        """Where the token before this place ends."""
        return end_of(self.tokens[self.place - 1])

    def parts(self):
        """The constants and the methods."""
        constants, methods = [], []
        while self.place < len(self.tokens):
            token = self.step()
            if not is_name(token):
                continue
            if self.text() == "=":
                constants.append(self.constant(token))
            elif self.text() in ("(", "{"):
                methods.append(self.method(token))
        return constants, methods

    def constant(self, name):
        self.step()
        inside = []
        while self.place < len(self.tokens) and self.text() not in (";", "{", "}") and self.text(1) != "=":
            inside.append(self.step())
        if self.text() == ";":
            self.step()
        return Constant(name, inside, name.start, self.last())

    def method(self, name):
        parameters, sections = [], []
        if self.text() == "(":
            while self.place < len(self.tokens) and self.text() not in (")", "{", "}", ";"):
                token = self.step()
                if is_name(token):
                    parameters.append(token)
            if self.text() == ")":
                self.step()
        if self.text() == "{":
            self.step()
            while self.place < len(self.tokens) and self.text() != "}":
                if self.text() in SECTIONS:
                    sections.append(self.section())
                else:
                    self.step()
            if self.text() == "}":
                self.step()
        return Method(name, parameters, sections, name.start, self.last())

    def section(self):
        word, name, statements = self.step(), None, []
        if self.place < len(self.tokens) and is_name(self.tokens[self.place]):
            name = self.step()
        if self.text() == "{":
            self.step()
            while self.place < len(self.tokens) and self.text() != "}" and self.text() not in SECTIONS:
                if found := self.statement():
                    statements.append(found)
            if self.text() == "}":
                self.step()
        return Section(word, name, statements, word.start, self.last())

    def statement(self):
        """The tokens of a statement without its semicolon."""
        inside = []
        while self.place < len(self.tokens) and self.text() not in (";", "}", "{") and self.text() not in SECTIONS:
            inside.append(self.step())
        if self.text() in (";", "{"):
            self.step()
        return inside


def called(statement):
    """The token of the method that encodes the field of a statement, or None."""
    return statement[2] if len(statement) > 2 and statement[1].text == "=:=" and statement[2].kind == "name" else None


def arguments(statement):
    """The tokens of each argument of that method."""
    if len(statement) < 4 or statement[3].text != "(":
        return []
    after = notation.after_brackets(statement, 3)
    inside = statement[4:after - 1 if statement[after - 1].text == ")" else after]
    return notation.split(inside, ",") if inside else []


def bracket(statement):
    """The tokens in the bracket of a statement, or None where it has none or says VARIABLE."""
    inside = notation.bracket(statement)
    return None if inside is None or [it.text for it in inside] == ["VARIABLE"] else inside


class Names:
    """The parts of a text, and each name in it."""

    def __init__(self, text):
        self.text, self.tokens = text, tokens_of(text)
        self.starts = [it.start for it in self.tokens]
        self.constants, self.methods = Outliner(self.tokens).parts()
        self.uses = sorted([*self.of_constants(), *self.of_methods()], key=lambda it: it.start)
        self.places = [it.start for it in self.uses]
        self.values = self.valued()

    def valued(self):
        """The number of each constant that has one."""
        found = {}
        for it in self.constants:
            value = notation.number(it.tokens, found)
            if value is not None:
                found.setdefault(it.name.text, value)
        return found

    def of_constants(self):
        for it in self.constants:
            yield Use("constant", it.name.text, it.name.start, True)
            yield from (Use("constant", token.text, token.start) for token in it.tokens if is_name(token))

    def of_methods(self):
        known = {it.name.text for it in self.methods}
        for number, it in enumerate(self.methods):
            yield Use("method", it.name.text, it.name.start, True)
            yield from (Use("parameter", token.text, token.start, True, number) for token in it.parameters)
            shared = {one[0].text for section in it.sections if section.word.text in HEADED for one in section.statements if is_name(one[0])}
            for at, section in enumerate(it.sections):
                if section.name is not None:
                    yield Use("format", section.name.text, section.name.start, True, number, at)
                for statement in section.statements:
                    yield from self.of_statement(statement, number, at, shared, known)

    def of_statement(self, statement, number, at, shared, known):
        """The names in a statement: its field, the method that encodes that, and those in expressions."""
        word = self.methods[number].sections[at].word.text
        parameters = {it.text for it in self.methods[number].parameters}
        for place, token in enumerate(statement):
            follows = statement[place + 1].text if place + 1 < len(statement) else ""
            if not is_name(token):
                continue
            if place == 2 and statement[1].text == "=:=":
                yield Use("method" if token.text in known or token.text not in notation.LIBRARY else "library", token.text, token.start)
            elif place == 0 or follows == ".":
                is_shared = token.text in shared
                local = at if word == LISTED and not is_shared else None
                defines = place == 0 and word in (HEADED if is_shared else (LISTED,))
                yield Use("field", token.text, token.start, defines, number, local)
            elif token.text in parameters:
                yield Use("parameter", token.text, token.start, False, number)
            else:
                yield Use("constant", token.text, token.start)

    def token_at(self, offset):
        """The place of the token that an offset is in, or at whose end it is, or None."""
        at = bisect.bisect_right(self.starts, offset) - 1
        for place in (at, at - 1):
            if place >= 0 and self.starts[place] <= offset <= end_of(self.tokens[place]) and self.tokens[place].kind in ("name", "bits", "number"):
                return place
        return None

    def use_at(self, offset):
        """The name at an offset, or None."""
        place = self.token_at(offset)
        if place is None:
            return None
        at = bisect.bisect_left(self.places, self.tokens[place].start)
        return self.uses[at] if at < len(self.uses) and self.uses[at].start == self.tokens[place].start else None

    def every(self, use):
        """All places at which what a name stands for is named."""
        return [it for it in self.uses if is_same(it, use)]

    def definition(self, use):
        """Where what a name stands for is defined, or None."""
        return next((it for it in self.every(use) if it.defines), None)

    def section_at(self, offset):
        """The numbers of the method and of the section in which an offset is; None in place of either."""
        for number, method in enumerate(self.methods):
            if method.start <= offset <= method.end or number + 1 == len(self.methods) and offset > method.start and not self.is_closed(method):
                inside = [at for at, it in enumerate(method.sections) if it.start < offset]
                at = inside[-1] if inside else None
                is_in = at is not None and (offset < method.sections[at].end or not self.is_closed(method.sections[at]))
                return number, at if is_in else None
        return None, None

    def is_closed(self, part):
        """Whether a part ends with its bracket."""
        return self.text[part.end - 1] == "}"


def is_same(one, two):
    """Whether two names stand for the same. What DEFAULT says of a field that formats alone have is said of each of these."""
    if (one.kind, one.name, one.method) != (two.kind, two.name, two.method):
        return False
    return one.section == two.section or one.kind == "field" and None in (one.section, two.section)


def formats(method):
    """The numbers of the sections of a method that are formats."""
    return [at for at, it in enumerate(method.sections) if it.word.text == LISTED]
