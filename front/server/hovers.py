"""What a name means, where the pointer rests on it, in Markdown."""
import re

from . import library, pages
from .lengths import Lengths, parts, shown
from .names import LISTED, arguments, end_of, formats

WIDEST = 60  # characters of an encoding in a row
CODE = re.compile(r"\b[EPKVICFULN]\d{1,2}\b")
WORDS = {
    "UNCOMPRESSED": "The fields of the header, in their order, with their lengths in bits. An encoding here holds in every format.",
    "CONTROL": "Values beside the header. One that nothing binds is asked: the caller gives it with the header.",
    "INITIAL": "What the context holds before the first header.",
    "DEFAULT": "The encoding of a field in each format that gives none.",
    "COMPRESSED": "A format: one way to send the header. It lists what is sent, in order.",
    "ENFORCE": "A condition that holds: in UNCOMPRESSED and CONTROL in every format, in COMPRESSED in that one.",
    "THIS": "The whole that the method encodes: the header, or with CVALUE and CLENGTH the packet.",
    "VARIABLE": "A bracket that says nothing of the length.",
    "UVALUE": "The number that the bits of the uncompressed side make.",
    "ULENGTH": "How many bits the uncompressed side has.",
    "CVALUE": "The number that the bits of the compressed side make.",
    "CLENGTH": "How many bits the compressed side has.",
    "true": "The condition that always holds.",
    "false": "The condition that never holds.",
}


def code(text):
    """A piece of the profile in Markdown."""
    return "```rohcfn\n%s\n```" % text


def row(*cells):
    return "| %s |" % " | ".join(it.replace("|", "\\|").replace("\n", " ") for it in cells)


def table(heads, rows):
    return "\n".join([row(*heads), "|" + "---|" * len(heads), *rows])


class Hovers:
    """What is shown of the names of a text."""

    def __init__(self, names):
        self.names, self.lengths = names, Lengths(names)

    def at(self, offset):
        """What is shown at an offset, and where what is shown begins and ends; or None."""
        use = self.names.use_at(offset)
        if use is not None:
            told = getattr(self, use.kind)(use)
            return (told, use.start, use.start + len(use.name)) if told else None
        place = self.names.token_at(offset)
        if place is not None and self.names.tokens[place].text in WORDS:
            token = self.names.tokens[place]
            return "`%s`\n\n%s" % (token.text, WORDS[token.text]), token.start, end_of(token)
        return self.of_code(offset)

    def of_code(self, offset):
        """What the page says of a code that stands in a comment at an offset."""
        begin, end = self.names.text.rfind("\n", 0, offset) + 1, self.names.text.find("\n", offset)
        for found in CODE.finditer(self.names.text, begin, len(self.names.text) if end < 0 else end):
            if found.start() <= offset <= found.end() and (told := pages.told(found.group())) is not None:
                return told, found.start(), found.end()
        return None

    def library(self, use):
        return library.told(use.name)

    def constant(self, use):
        it = next((it for it in self.names.constants if it.name.text == use.name), None)
        if it is None:
            return None
        value = self.names.values.get(use.name)
        return code(self.names.text[it.start:it.end]) + ("" if value is None else "\n\nThe constant %s is %d." % (use.name, value))

    def parameter(self, use):
        return "`%s`: a parameter of `%s`, a number that the call gives." % (use.name, self.names.methods[use.method].name.text)

    def format(self, use):
        bits = self.lengths.format(use.method, use.section).compressed
        return "The format `%s` of `%s` has %s." % (use.name, self.names.methods[use.method].name.text, shown(bits))

    def method(self, use):
        number = self.lengths.methods.get(use.name)
        if number is None:
            return None
        it = self.names.methods[number]
        head = it.name.text + ("(%s)" % ", ".join(token.text for token in it.parameters) if it.parameters else "")
        rows = []
        for at in formats(it):
            least, most = self.lengths.format(number, at).compressed
            rows.append(row(it.sections[at].name.text if it.sections[at].name else "-", str(least), str(most)))
        header = shown(self.lengths.method(number).uncompressed)
        return "%s\nIts header has %s.\n\n%s" % (code(head), header, table(("format", "least bits", "most bits"), rows))

    def field(self, use):
        """The declaration of a field, its lengths, and its bits in each format."""
        method = self.names.methods[use.method]
        part = parts(self.lengths, use.method).get(use.name)
        defined = self.names.definition(use)
        if part is None or defined is None:
            return None
        own = [at for at in formats(method) if part != "local" or self.lengths.own(use.method, at, use.name) is not None]
        if part == "local" and use.section is not None:
            own = [use.section]
        rows = [self.in_format(use, at) for at in own]
        sides = {self.lengths.field(use.method, at, use.name).uncompressed for at in own}
        lines = ["%s\nA %s field of `%s`." % (code(self.declaration(defined)), part, method.name.text)]
        if part != "local" and sides:
            lines.append("In the header it has %s." % shown((min(it[0] for it in sides), max(it[1] for it in sides))) if part == "header" else
                         "Its value has %s." % shown((min(it[0] for it in sides), max(it[1] for it in sides))))
        return "%s\n\n%s" % (" ".join(lines), table(("format", "bits in the packet", "encoding"), rows))

    def in_format(self, use, at):
        """The row of a field in a format."""
        section = self.names.methods[use.method].sections[at]
        statement, _ = self.lengths.encoding(use.method, at, use.name)
        bits = self.lengths.field(use.method, at, use.name).compressed
        return row(section.name.text if section.name else "-", shown(bits), "none" if statement is None else "`%s`" % self.encoding(statement))

    def encoding(self, statement):
        """The text of the encoding of a statement."""
        last = statement[2]
        if len(statement) > 3 and statement[3].text == "(":
            inside = [it for one in arguments(statement) for it in one]
            last = next((it for it in statement if it.start > (inside[-1].start if inside else statement[3].start) and it.text == ")"), statement[-1])
        text = " ".join(self.names.text[statement[2].start:end_of(last)].split())
        return text if len(text) <= WIDEST else text[:WIDEST] + " .."

    def declaration(self, use):
        """The text of the statement that defines a field."""
        for section in self.names.methods[use.method].sections:
            for it in section.statements:
                if it[0].start == use.start:
                    return "%s { %s; }" % (section.word.text + (" " + section.name.text if section.name and section.word.text == LISTED else ""),
                                           self.names.text[it[0].start:end_of(it[-1])])
        return use.name
