"""The one layout of a profile's text, as docs/EDITORS.md has it. A text that has no tree is left as it is."""
from .. import grammar
from ..tokens import SECTIONS, TOKEN, tokens_of

WIDTH = 160  # characters of a line in which a whole section stands
LONGEST = 1 << 18  # characters of a text that is laid out
INDENT = "  "
MEANT = "// lint: meant"
BEFORE = (")", "]", ",", ";", ".", "^")  # no blank stands before these
BEHIND = ("(", "[", ".", "^", "!")  # nor behind these
OPERAND = (")", "]")  # what ends an operand, besides names, numbers and words: a minus behind it is no sign


class Piece:
    """A token or a comment, and how many line ends stand before it. `level` is how far it stands in where it begins a line; `blank`, whether a blank line comes
    before; `is_meant`, whether its line says that it is meant, so that nothing is parted there."""

    def __init__(self, text, kind, ends):
        self.text, self.kind, self.ends = text, kind, ends
        self.begins, self.blank, self.level, self.is_meant = ends > 0, False, 0, False

    def is_comment(self):
        return self.kind == "comment"

    def is_one_of(self, texts):
        """Whether it is one of these tokens."""
        return not self.is_comment() and self.text in texts


def pieces(text):
    """The tokens and comments of a text."""
    found, ends = [], 0
    for it in TOKEN.finditer(text):
        word = it.group()
        if it.lastgroup == "space" and word.isspace():
            ends += word.count("\n")
            continue
        kind = "comment" if it.lastgroup == "space" else it.lastgroup
        found.append(Piece(word.rstrip("\r") if word.startswith("//") else word, kind, ends))
        ends = 0
    return found


def mark_meant(every):
    """Marks what stands on a line that says that it is meant."""
    begin = 0
    for at, it in enumerate(every):
        begin = at if it.ends else begin
        if it.text == MEANT:
            for one in every[begin:at + 1]:
                one.is_meant = True


class Arranger:
    """Goes over the pieces, and says of each whether it begins a line, and how far it stands in."""

    def __init__(self, every):
        self.every = every
        self.depth = 0  # how many `{` are open
        self.is_inside = False  # whether a constant, a head or a statement has begun
        self.is_row = False  # whether the section stands in one line
        self.before = None  # the piece before

    def arrange(self):
        for at, it in enumerate(self.every):
            if it.is_comment():
                it.level = self.depth + self.is_inside
                it.blank = self.may_be_blank(it) and not self.is_inside
            else:
                self.token(at, it)
            self.before = it

    def token(self, at, it):
        if self.depth == 1 and not self.is_inside and it.text in SECTIONS:
            self.is_row = self.fits_in_a_row(at)
        opens, closes = it.text == "{", it.text == "}"
        is_head = not self.is_inside and not closes and it.text != ";"
        it.level = self.depth - closes + (self.is_inside and not opens and not closes)
        if self.has_to_begin(it, is_head) and not it.is_meant and self.before is not None and not self.follows_a_note(it):
            it.begins = True
        it.blank = self.may_be_blank(it) and is_head
        self.depth += opens - closes
        self.is_inside = not (opens or closes or it.text == ";")
        self.is_row = self.is_row and self.depth > 0

    def has_to_begin(self, it, is_head):
        """Whether a token has to begin a line: a constant, a method, a section, a bracket of one, or a statement, and in a row the first alone."""
        if self.depth == 2 or self.depth == 1 and it.text == "{":
            return not self.is_row and (is_head or it.text in ("{", "}"))
        return is_head or it.text in ("{", "}")

    def follows_a_note(self, it):
        """Whether a comment that begins the line stands before, so that the line has begun."""
        return not it.ends and self.before.is_comment() and (self.before.begins or self.before is self.every[0])

    def may_be_blank(self, it):
        """Whether a blank line that stands before a piece is kept."""
        return it.ends > 1 and self.before is not None and not self.before.is_one_of("{") and not it.is_one_of(("{", "}"))

    def fits_in_a_row(self, at):
        """Whether a section that begins at a place stands in one line, which isn't too long."""
        row = []
        for place in range(at, min(at + WIDTH, len(self.every))):
            it = self.every[place]
            if row and it.ends or it.text.startswith("//") or "\n" in it.text:
                return False
            row.append(it)
            if it.is_one_of("}"):
                return len(joined(row)) + len(INDENT) <= WIDTH
        return False


def has_blank(row, at):
    """Whether a blank stands before a piece of a row, on the line of the one before."""
    it, before = row[at], row[at - 1]
    if it.is_comment() or before.is_comment():
        return True
    if it.text in BEFORE or before.text in BEHIND:
        return False
    if it.text == "(":
        return before.kind != "name"
    if before.text == "-":
        first = row[at - 2] if at > 1 else None
        return first is not None and not first.is_comment() and (first.kind != "mark" or first.text in OPERAND)
    return True


def joined(row):
    """The line of pieces."""
    return "".join((" " if at and has_blank(row, at) else "") + it.text for at, it in enumerate(row))


def lines(every):
    """The lines of arranged pieces."""
    row = []
    for it in every:
        if row and it.begins:
            yield INDENT * row[0].level + joined(row)
            row = []
        if it.blank and it.begins:
            yield ""
        row.append(it)
    if row:
        yield INDENT * row[0].level + joined(row)


def contents(text):
    """The tokens and comments of a text, in their order."""
    for it in TOKEN.finditer(text):
        word = it.group()
        if it.lastgroup != "space" or not word.isspace():
            yield word.rstrip("\r") if word.startswith("//") else word


def laid_out(text):
    """A text in the one layout; the text itself where it has no tree or is too long, or where a token or a comment would be another one."""
    if len(text) > LONGEST or grammar.stops(tokens_of(text), 0) is not None:
        return text
    every = pieces(text)
    mark_meant(every)
    Arranger(every).arrange()
    end = "\r\n" if "\r\n" in text[:text.find("\n") + 1] else "\n"
    made = "".join(it + end for it in lines(every))
    return made if list(contents(made)) == list(contents(text)) else text
