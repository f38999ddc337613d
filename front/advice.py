"""What helps with a fault of a profile: what might stand at its place, a name that is nearly the same, a construct of RFC 4997 that is left out."""
import functools
import os
import re

from . import grammar, notation

PAGES = os.path.join(os.path.dirname(os.path.dirname(os.path.realpath(__file__))), "docs")
ARGUMENTS = {"irregular": 1, "static": 0, "lsb": 2, "uncompressed_value": 2, "compressed_value": 2, "crc": 5}
CRC = {"crc3": "3, 0x06, 0x07", "crc7": "7, 0x79, 0x7f", "crc8": "8, 0xe0, 0xff"}
GLANCE = 10_000  # characters beyond a fault
SHORTEST = 3  # letters of a name that may be a slip for another
PAGE_OF = {"FORMATS.md": "E01 E02 E03 E05 E10 E12", "LIMITS.md": "E04 E11 E15 E34"}  # else it is NOTATION.md
CHARACTERS = {
    ":": "fields are not grouped here (RFC 4997's `a : b =:= ..` is left out): encode each by itself",
    "\ufeff": "the file begins with a byte order mark, which can't be seen: save it without",
    "\"": "a bit text stands between marks `'`",
    "&": "`and` is `&&`",
    "|": "`or` is `||`",
    "#": "a comment begins with `//`",
}


class Fault:
    """A fault of a text, with the tokens around it. Where the text can't be read on, no more tokens are taken than a glance beyond the fault needs."""

    def __init__(self, text, start, code, words):
        self.text, self.start, self.code, self.words = text, start, code, words

    @functools.cached_property
    def tokens(self):
        return notation.tokens_of(self.text, self.start + GLANCE if self.code < "E20" else None)

    @functools.cached_property
    def place(self):
        """The number of the token at the fault."""
        return next((at for at, it in enumerate(self.tokens) if it.start >= self.start), len(self.tokens))

    @functools.cached_property
    def profile(self):
        return notation.Profile(self.text)

    def token(self, away=0):
        """The text of the token at the fault, or so many after it."""
        at = self.place + away
        return self.tokens[at].text if 0 <= at < len(self.tokens) else ""

    def width(self):
        """How many characters of the fault's line the token at the fault takes."""
        found = notation.TOKEN.match(self.text, self.start)
        return len(found.group()) if found and found.lastgroup != "space" else 1


def either(words):
    """Words as a choice."""
    return words[0] if len(words) == 1 else "%s or %s" % (", ".join(words[:-1]), words[-1])


def near(word, other):
    """Whether two words differ by their case, or by one letter (another, one more, one less, or two exchanged) where they are long enough to tell."""
    if word == other or min(len(word), len(other)) < SHORTEST:
        return word != other and word.lower() == other.lower()
    if abs(len(word) - len(other)) > 1:
        return False
    front = next((at for at, (one, two) in enumerate(zip(word, other)) if one != two), min(len(word), len(other)))
    one, two = word[front:], other[front:]
    return one[1:] == two[1:] or one[1:] == two or one == two[1:] or (one[:2] == two[1::-1] and one[2:] == two[2:])


def of_character(fault):
    character = fault.text[fault.start:fault.start + 1]
    if character == ":" and "=" in (fault.text[fault.start - 1:fault.start], fault.text[fault.start + 1:fault.start + 2]):
        yield "an encoding follows `=:=`"
    elif character in CHARACTERS:
        yield CHARACTERS[character]
    elif character and not character.isascii():
        yield "outside comments all is ASCII, and this is U+%04X" % ord(character)


def of_token(fault):
    stopped = grammar.stops(fault.tokens, fault.place)
    if stopped is None or stopped[0] != fault.place:
        return
    if fault.token() == "^":
        yield "a power of a power needs round brackets"
        return
    yield "expected %s" % either(stopped[1])
    if fault.token(-1) == "UNCOMPRESSED" and fault.token() not in notation.RESERVED:
        yield "a method has one UNCOMPRESSED, without a name (RFC 4997's several uncompressed formats are left out)"
    elif (mark := grammar.missing(fault.tokens, fault.place)) in stopped[1] or "`%s`" % mark in stopped[1]:
        yield "a missing `%s`%s?" % (mark, " after `%s`" % fault.token(-1) if fault.place else "")


def past_operand(tokens, at):
    """The place after the operand that begins at a place: a number, a name with its attribute, or what stands in brackets, with a minus before it."""
    at += at < len(tokens) and tokens[at].text == "-"
    at = notation.after_brackets(tokens, at) if at < len(tokens) and tokens[at].text == "(" else at + 1
    return at + 2 if at < len(tokens) and tokens[at].text == "." else at


def begin_of_operand(tokens, end):
    """The place at which the operand begins that ends before a place."""
    at, depth = end - 1, 0
    while at > 0:
        depth += (tokens[at].text == ")") - (tokens[at].text == "(")
        if depth == 0:
            break
        at -= 1
    return at - 2 if at > 1 and tokens[at - 1].text == "." else at


def of_remainder(fault):
    """What to put in round brackets where `%` stands beside another operator: a power on either side of it, else the remainder itself."""
    tokens, at = fault.tokens, fault.place
    if fault.token() != "%":
        return
    begin, end = begin_of_operand(tokens, at), past_operand(tokens, at + 1)
    front, behind = (begin, at), (at + 1, end)
    if begin > 1 and tokens[begin - 1].text == "^":
        front = begin_of_operand(tokens, begin - 1), at
    if end < len(tokens) and tokens[end].text == "^":
        behind = at + 1, past_operand(tokens, end + 1)
    powers = [it for it in (front, behind) if it not in ((begin, at), (at + 1, end))]
    for first, last in powers or [(begin, end)]:
        if last <= len(tokens):
            yield "put round brackets around `%s`" % fault.text[tokens[first].start:tokens[last - 1].start + len(tokens[last - 1].text)]


def methods(fault):
    return {it.name: len(it.parameters) for it in fault.profile.methods}


def of_crc(name):
    if name in CRC:
        yield "%s(DATA, LENGTH) of RFC 5225 is crc(%s, DATA, LENGTH) here" % (name, CRC[name])


def of_unknown(fault):
    name = fault.token()
    calls = fault.token(-1) == "=:="
    if calls:
        if name in CRC:
            yield from of_crc(name)
            return
    named = [*methods(fault), *notation.LIBRARY] if calls else [it.text for it in fault.tokens if it.kind == "name" and it.text not in notation.RESERVED]
    close = sorted({it for it in named if near(name, it)})
    if close:
        yield "do you mean %s?" % either(["`%s`" % it for it in close])
    if not calls and name in fault.profile.constants and fault.token(1) != ".":
        yield "the constant is defined further down: constants are used after they are defined"


def of_arguments(fault):
    known, name = {**methods(fault), **ARGUMENTS}, fault.token()
    if name in known:
        after = notation.after_brackets(fault.tokens, fault.place + 1) if fault.token(1) == "(" else fault.place + 1
        inside = fault.tokens[fault.place + 2:after - 1]
        given = len(notation.split(inside, ",")) if inside else 0
        yield "%s takes %d, and here are %d" % (name, known[name], given)


def of_name(fault):
    if fault.token() in notation.LIBRARY:
        yield "%s is a library method" % fault.token()


def of_top(fault):
    names = [it for it, count in methods(fault).items() if count == 0]
    yield "methods without parameters: %s" % ", ".join(names) if names else "the file has no method without parameters"


def of_sections(fault):
    method = next((it for it in fault.profile.methods if it.name == fault.token()), None)
    if method is None:
        return
    heads = notation.heads(method.body)
    words, names = [it for it, _ in heads], [name for it, name in heads if it == "COMPRESSED"]
    for word in ("UNCOMPRESSED", "COMPRESSED"):
        if word not in words:
            yield "%s has no %s" % (method.name, word)
    if len(names) > 1 and None in names:
        yield "of several COMPRESSED each has a name"
    if words.count("UNCOMPRESSED") > 1:
        yield "%s has %d UNCOMPRESSED (RFC 4997's several uncompressed formats are left out)" % (method.name, words.count("UNCOMPRESSED"))


def of_kind(fault):
    """A wrong kind inside the brackets of a call of crc3 and the like."""
    depth = 0
    for at in range(fault.place - 1, 0, -1):
        depth += (fault.tokens[at].text in notation.CLOSED) - (fault.tokens[at].text in notation.OPEN)
        if depth < 0:
            yield from of_crc(fault.tokens[at - 1].text)
            return


KNOWN = {"E01": of_character, "E10": of_token, "E14": of_remainder, "E20": of_unknown, "E21": of_name, "E22": of_arguments, "E27": of_top, "E29": of_sections, "E31": of_kind}


def hints(fault):
    """Lines that help with a fault."""
    return list(KNOWN.get(fault.code, lambda it: ())(fault))


def page(code):
    """What docs/FAULTS.md says of a code, and which page has more."""
    also = next((name for name, codes in PAGE_OF.items() if code in codes.split()), "NOTATION.md")
    try:
        with open(os.path.join(PAGES, "FAULTS.md"), encoding="utf-8") as file:
            found = re.search(r"^- \*\*%s\*\* \*[^*]*\* ((?:.+\n)(?:  .*\n)*)" % code, file.read(), re.MULTILINE)
    except OSError:
        found = None
    said = " ".join(found.group(1).split()) if found else ""
    return said, "docs/FAULTS.md, %s; docs/%s" % (code, also)
