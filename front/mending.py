"""Copies of a profile's text in which faults are mended, so that the program says what comes after them. What is put in has no fault itself."""
import array

from . import notation

SAFE = ("E20", "E21", "E22", "E23", "E24", "E25", "E26")
ENCODING = "''"  # sends nothing, and is right for each field


class Copy:
    """A text that changes, with the offset in the first text for each of its characters."""

    def __init__(self, text):
        self.text, self.origins = text, array.array("l", range(len(text) + 1))

    def origin(self, start):
        """The offset in the first text of an offset in this one."""
        return self.origins[start]

    def replace(self, start, end, new):
        self.text = self.text[:start] + new + self.text[end:]
        self.origins[start:end] = array.array("l", [self.origins[start]] * len(new))

    def mend(self, fault):
        """Mends a fault of the text, where that is safe; whether it is done."""
        if fault.code not in SAFE or fault.width() != len(fault.token()) or not fault.token():
            return False
        mended = MENDS[fault.code](fault)
        if mended is None:
            return False
        self.replace(*mended)
        return True


def end_of(fault, place):
    """The offset at which the token at a place ends."""
    return fault.tokens[place].start + len(fault.tokens[place].text)


def call(fault):
    """A call becomes an encoding without a fault."""
    if fault.token(-1) != "=:=":
        return None
    after = notation.after_brackets(fault.tokens, fault.place + 1) if fault.token(1) == "(" else fault.place + 1
    return fault.start, end_of(fault, after - 1), ENCODING


def unknown(fault):
    """An unknown method becomes an encoding, a field in an expression THIS, another name in one a number. A statement of INITIAL or DEFAULT goes."""
    if fault.token(-1) == "=:=":
        return call(fault)
    if fault.token(1) == "=:=":
        return statement(fault)
    return fault.start, fault.start + len(fault.token()), "THIS" if fault.token(1) == "." else "1"


def statement(fault):
    """The statement that begins with the name goes."""
    after = notation.after_mark(fault.tokens, fault.place, ";")
    return fault.start, end_of(fault, after - 1), ""


def second_name(fault):
    """Of a field that is there already this statement goes, where it has no encoding, which might be the one that is meant; another name becomes a new one."""
    marks = [it.text for it in fault.tokens[:fault.place]]
    if marks.count("{") - marks.count("}") == 2:
        return None if fault.token(1) == "=:=" else statement(fault)
    taken, number = {it.text for it in fault.tokens}, 0
    while fault.token() + "_%d" % number in taken:
        number += 1
    return fault.start, fault.start + len(fault.token()), fault.token() + "_%d" % number


def second_encoding(fault):
    """Of a field with a second encoding this one goes, where it isn't one for all formats: in a format up to the bracket, else the whole statement."""
    if fault.token(1) != "=:=" or section_of(fault) in ("UNCOMPRESSED", "CONTROL"):
        return None
    if section_of(fault) in ("INITIAL", "DEFAULT"):
        return statement(fault)
    at = fault.place + 3
    if fault.token(3) == "(":
        at = notation.after_brackets(fault.tokens, at)
    return fault.start + len(fault.token()), end_of(fault, at - 1), ""


def section_of(fault):
    """The word of the section in which a fault is."""
    return next((fault.tokens[at].text for at in range(fault.place, -1, -1) if fault.tokens[at].text in notation.SECTIONS), None)


def encoded(fault):
    """A field without an encoding gets one."""
    end = fault.start + len(fault.token())
    return end, end, " =:= " + ENCODING


def without_context(fault):
    """A field without a context gets an encoding that needs none."""
    if fault.token(1) != "=:=":
        return None
    after = notation.after_brackets(fault.tokens, fault.place + 3) if fault.token(3) == "(" else fault.place + 3
    return fault.tokens[fault.place + 2].start, end_of(fault, after - 1), ENCODING


MENDS = {"E20": unknown, "E21": second_name, "E22": call, "E23": call, "E24": second_encoding, "E25": without_context, "E26": encoded}
