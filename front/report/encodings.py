"""How each field of a format is encoded, in words of RFC 4997, as the text of the profile has it."""
import collections

from .. import notation
from ..server.lengths import Lengths, parts
from ..server.names import Names, formats

# A field of a format: its part, its encoding as the text has it, the kind of that (a library method, `bits`, `call`, `other`), and the method that it calls.
Encoded = collections.namedtuple("Encoded", "name part text kind calls")

SPACED = ("+", "-", "*", "/", "%", "^", "==", "!=", "<", ">", "<=", ">=", "&&", "||")


def written(tokens):
    """Tokens as they are mostly written."""
    found = ""
    for it in tokens:
        found += " %s " % it.text if it.text in SPACED else it.text + " " if it.text == "," else it.text
    return found.strip()


def encoding_tokens(statement):
    """The tokens of the encoding of a statement, without its bracket."""
    tokens = statement[2:]
    if notation.bracket(statement) is None:
        return tokens
    return tokens[:max(at for at, it in enumerate(tokens) if it.text == "[")]


class Encodings:
    """The encodings of a text."""

    def __init__(self, text):
        self.names = Names(text)
        self.lengths = Lengths(self.names)
        self.methods = {it.name.text: number for number, it in reversed(list(enumerate(self.names.methods)))}

    def of(self, method, form):
        """The fields of a format: those of the header and of CONTROL, and then its own."""
        number = self.methods.get(method)
        if number is None:
            return []
        sections = self.names.methods[number].sections
        at = next((it for it in formats(self.names.methods[number]) if (sections[it].name.text if sections[it].name else "-") == form), None)
        if at is None:
            return []
        own = {it[0].text for it in sections[at].statements}
        known = parts(self.lengths, number)
        return [self.field(number, at, name, part) for name, part in known.items() if part != "local" or name in own]

    def field(self, number, at, name, part):
        statement, _ = self.lengths.encoding(number, at, name)
        if statement is None:
            return Encoded(name, part, "", "other", None)
        tokens = encoding_tokens(statement)
        word = tokens[0].text if tokens else ""
        if tokens and tokens[0].kind == "bits":
            return Encoded(name, part, word, "bits", None)
        if word in self.methods:
            return Encoded(name, part, written(tokens), "call", word)
        return Encoded(name, part, written(tokens), word if word in notation.LIBRARY else "other", None)
