"""The tokens of a profile's text."""
import collections
import re

TOKEN = re.compile(r"(?P<space>[ \t\r\n\f]+|//[^\n]*|/\*.*?(?:\*/|\Z))|(?P<name>[A-Za-z]\w*)|(?P<number>0x[0-9a-fA-F]+|0b[01]+|[0-9]+)|(?P<bits>'[01]*')"
                   r"|(?P<mark>=:=|\|\||&&|[=!<>]=|[{}()\[\],;=.<>+*/%^!-])|(?P<other>.)", re.DOTALL | re.ASCII)
SECTIONS = ("UNCOMPRESSED", "CONTROL", "INITIAL", "DEFAULT", "COMPRESSED")
RESERVED = (*SECTIONS, "ENFORCE", "THIS", "VARIABLE", "UVALUE", "ULENGTH", "CVALUE", "CLENGTH", "true", "false")
OPEN, CLOSED = "([{", ")]}"

Token = collections.namedtuple("Token", "kind text start")


def tokens_of(text, end=None):
    """The tokens of a text, or of its front, comments and blanks left out. A character with which none begins is one of the kind `other`."""
    found = TOKEN.finditer(text) if end is None else TOKEN.finditer(text, 0, end)
    return [Token(it.lastgroup, it.group(), it.start()) for it in found if it.lastgroup != "space"]
