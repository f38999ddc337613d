"""Reads tokens by the grammar of docs/FORMATS.md: the one reader of expressions, and the value of one of numbers and constants. An expression becomes a tree: a
leaf `("number", DIGITS)`, `("name", NAME)`, `("of", NAME, ATTRIBUTE)` or `("truth", WORD)`, or an operator with one or two trees."""
import operator

from .tokens import RESERVED

ATTRIBUTES = ("UVALUE", "ULENGTH", "CVALUE", "CLENGTH")
LEVELS = (("||",), ("&&",), ("==", "!=", "<", ">", "<=", ">="), ("+", "-"), ("*", "/", "%"), ("^",))
LEVEL = {mark: level for level, marks in enumerate(LEVELS) for mark in marks}
OPERATOR, EXPRESSION = "an operator", "an expression"
COMPUTED = {"+": operator.add, "-": operator.sub, "*": operator.mul, "/": operator.floordiv, "%": operator.mod, "^": operator.pow}
GREATEST, GREATEST_EXPONENT = 2**120, 127  # of a value, on either side of 0, and of an exponent
DIGITS = 128  # that a number without leading zeros may have


class Stop(ValueError):
    """Here the tokens can't go on."""


class Reader:
    """Goes over tokens, and keeps what else might stand at the place that it has reached."""

    def __init__(self, tokens, place=0):
        self.tokens, self.place, self.expected = tokens, place, []

    def sees(self, texts, told=None):
        """Whether the next token is one of these."""
        self.expected += [it for it in ([told] if told else ["`%s`" % it for it in texts]) if it not in self.expected]
        return self.place < len(self.tokens) and self.tokens[self.place].text in texts

    def sees_kind(self, kind, told):
        """Whether the next token is of a kind, and no reserved word."""
        self.expected += [told] if told not in self.expected else []
        if self.place == len(self.tokens):
            return False
        token = self.tokens[self.place]
        return token.kind == kind and token.text not in RESERVED

    def step(self):
        """Goes on behind a token; its text."""
        self.place, self.expected = self.place + 1, []
        return self.tokens[self.place - 1].text

    def may(self, texts, told=None):
        """Takes one of these, where it is there."""
        return self.step() if self.sees(texts, told) else None

    def must(self, texts, told=None):
        if not self.sees(texts, told):
            raise Stop
        return self.step()

    def must_kind(self, kind, told):
        if not self.sees_kind(kind, told):
            raise Stop
        return self.step()

    def expression(self, least=0):
        """An expression of operators of this level or above; all of them go from left to right, and a power has no power."""
        left = self.primary()
        while self.sees(LEVEL, OPERATOR) and LEVEL[self.tokens[self.place].text] >= least:
            mark = self.step()
            left = (mark, left, self.expression(LEVEL[mark] + 1))
            if mark == "^" and self.sees(("^",), OPERATOR):
                raise Stop
        return left

    def primary(self):
        if self.may(("!",), EXPRESSION):
            return "!", self.primary()
        if self.may(("(",), EXPRESSION):
            inner = self.expression()
            self.must((")",))
            return inner
        if self.may(("-",), EXPRESSION):
            return "-", ("number", self.must_kind("number", "a number"))
        if self.may(("THIS",), EXPRESSION):
            self.must((".",))
            return "of", "THIS", self.must(ATTRIBUTES)
        if self.sees_kind("name", EXPRESSION):
            name = self.step()
            return ("of", name, self.must(ATTRIBUTES)) if self.may((".",)) else ("name", name)
        if word := self.may(("true", "false"), EXPRESSION):
            return "truth", word
        return "number", self.must_kind("number", EXPRESSION)


def whole(tokens):
    """The tree of tokens that are an expression."""
    reader = Reader(tokens)
    tree = reader.expression()
    if reader.place != len(tokens):
        raise Stop
    return tree


def digits(text):
    """The number of a text of digits, where it isn't above all that may be."""
    base = {"0x": 16, "0b": 2}.get(text[:2], 10)
    found = (text if base == 10 else text[2:]).lstrip("0")
    if len(found) > DIGITS:
        raise ValueError("too great")
    return int(found or "0", base)


def value(tree, constants):
    """The value of a tree of numbers and constants. None on the way may be above the greatest."""
    mark, *inner = tree
    if mark == "number":
        found = digits(*inner)
    elif mark == "name":
        found = constants[inner[0]]
    else:
        values = [value(it, constants) for it in inner if isinstance(it, tuple)]
        if mark == "^" and not 0 <= values[1] <= GREATEST_EXPONENT:
            raise ValueError("no such power")
        found = -values[0] if mark == "-" and len(values) == 1 else COMPUTED[mark](*values)
    if abs(found) > GREATEST:
        raise ValueError("too great")
    return found
