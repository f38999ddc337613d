"""What a profile's text says of its methods, its constants, and the header of a method: as much as is read without judging it. The program alone judges."""
import collections

from . import expressions
from .tokens import CLOSED, OPEN, RESERVED, SECTIONS, TOKEN, Token, tokens_of

LIBRARY = ("uncompressed_value", "compressed_value", "irregular", "static", "lsb", "crc")

Method = collections.namedtuple("Method", "name parameters body")
Field = collections.namedtuple("Field", "name bits")


def after_brackets(tokens, place):
    """The place after the bracket that closes the one at a place, or the end."""
    depth = 0
    for at in range(place, len(tokens)):
        depth += (tokens[at].text in OPEN) - (tokens[at].text in CLOSED)
        if depth == 0:
            return at + 1
    return len(tokens)


def after_mark(tokens, place, mark):
    """The place after the next such mark, or the end."""
    return next((at + 1 for at in range(place, len(tokens)) if tokens[at].text == mark), len(tokens))


def methods_and_constants(tokens):
    """The methods of a text, and of each constant its name and the tokens of its expression."""
    methods, constants, place = [], [], 0
    while place < len(tokens):
        name, after = tokens[place], place + 1
        follows = tokens[after].text if after < len(tokens) else ""
        if name.kind == "name" and follows == "=":
            place = after_mark(tokens, after, ";")
            constants.append((name.text, tokens[after + 1:place - 1]))
            continue
        if name.kind == "name" and follows == "(":
            begin, after = after, after_brackets(tokens, after)
            parameters = [it.text for it in tokens[begin:after] if it.kind == "name"]
        else:
            parameters = []
        if name.kind == "name" and after < len(tokens) and tokens[after].text == "{":
            place = after_brackets(tokens, after)
            methods.append(Method(name.text, parameters, tokens[after + 1:place - 1]))
        else:
            place = after
    return methods, constants


def top_of(text):
    """The name of the last method of a text, or None: that of methods_and_constants, with no token kept."""
    last, name, state, depth = None, None, "begin", 0
    for it in TOKEN.finditer(text):
        kind, word = it.lastgroup, it.group()
        if kind == "space":
            continue
        if state == "brackets" or state == "body":
            depth += (word in OPEN) - (word in CLOSED)
            state = state if depth else "headed" if state == "brackets" else "begin"
        elif state == "constant":
            state = "begin" if word == ";" else state
        elif state == "named" and word == "=":
            state = "constant"
        elif state == "named" and word == "(":
            state, depth = "brackets", 1
        elif state in ("named", "headed") and word == "{":
            last, state, depth = name, "body", 1
        else:
            name, state = (word, "named") if kind == "name" else (None, "begin")
    return last


def number(tokens, constants):
    """The number of tokens that are an expression of numbers and constants, or None."""
    try:
        return expressions.value(expressions.whole(tokens), constants)
    except (ValueError, KeyError, ZeroDivisionError, RecursionError):
        return None


def split(tokens, mark):
    """The tokens between such marks that stand in no brackets; what follows the last."""
    parts, depth = [[]], 0
    for token in tokens:
        depth += (token.text in OPEN) - (token.text in CLOSED)
        if depth == 0 and token.text == mark:
            parts.append([])
        else:
            parts[-1].append(token)
    return parts


def in_brackets(tokens):
    """The tokens in round brackets that stand round all of them, without these."""
    closes, waiting = {}, []
    for at, it in enumerate(tokens):
        if it.text in OPEN:
            waiting.append(at)
        elif it.text in CLOSED and waiting:
            closes[waiting.pop()] = at
    first, last = 0, len(tokens)
    while first < last and tokens[first].text == "(" and closes.get(first) == last - 1:
        first, last = first + 1, last - 1
    return tokens[first:last]


def heads(body):
    """The word with which each section of a method begins, and the name after it, or None."""
    found, place = [], 0
    while place < len(body):
        if body[place].text in SECTIONS:
            found.append((body[place].text, next((it.text for it in body[place + 1:place + 2] if it.kind == "name"), None)))
        place = after_brackets(body, after_mark(body, place, "{") - 1)
    return found


def statements(body, word):
    """The statements of a method's sections of a kind."""
    found, place = [], 0
    while place < len(body):
        begin = after_mark(body, place, "{") - 1
        after = after_brackets(body, begin)
        if body[place].text == word:
            found += [it for it in split(body[begin + 1:after - 1], ";") if it]
        place = after
    return found


def bracket(statement):
    """The tokens in the bracket at the end of a statement, or None."""
    if not statement or statement[-1].text != "]":
        return None
    begin = max((at for at, it in enumerate(statement) if it.text == "["), default=None)
    return None if begin is None else statement[begin + 1:-1]


class Profile:
    """The methods of a text with what is known of their headers."""

    def __init__(self, text):
        self.methods, constants = methods_and_constants(tokens_of(text))
        self.constants = {}
        for name, expression in constants:
            value = number(expression, self.constants)
            if value is not None:
                self.constants[name] = value

    def top(self):
        """The name of the last method, or None."""
        return self.methods[-1].name if self.methods else None

    def length(self, statement):
        """The length that a statement gives its field, where it is a number: by its bracket, or by uncompressed_value."""
        if (inside := bracket(statement)) is not None:
            return number(inside, self.constants)
        if [it.text for it in statement[1:4]] == ["=:=", "uncompressed_value", "("] and statement[-1].text == ")":
            return number(split(statement[4:-1], ",")[0], self.constants)
        return None

    def fields(self, top, section):
        """The fields of a section of a method, ENFORCE left out; the length of one is None where it isn't a number."""
        body = next((it.body for it in self.methods if it.name == top), [])
        return [Field(it[0].text, self.length(it)) for it in statements(body, section) if it[0].text != "ENFORCE"]

    def asked(self, top):
        """The asked fields of a method, in their order (docs/NOTATION.md)."""
        body = next((it.body for it in self.methods if it.name == top), [])
        control = statements(body, "CONTROL")
        bound, encoded = set(), {it[0].text for it in control if len(it) > 1 and it[1].text == "=:="}
        for statement in control:
            if statement[0].text == "ENFORCE":
                for conjunct in split(in_brackets(statement[1:]), "&&"):
                    bound.update(alone_on_a_side(in_brackets(conjunct)))
        return [it for it in self.fields(top, "CONTROL") if it.bits is not None and it.name not in bound | encoded]


def alone_on_a_side(conjunct):
    """The fields whose UVALUE is a side of the `==` of a conjunct."""
    sides = split(conjunct, "==")
    if len(sides) == 2:
        for side in map(in_brackets, sides):
            if [it.text for it in side[1:]] == [".", "UVALUE"]:
                yield side[0].text
