"""The parts of a text as an editor lists them and folds them."""
from ..tokens import TOKEN
from .names import LISTED, end_of, is_name

METHOD, FIELD, CONSTANT, FORMAT, SECTION = 6, 8, 14, 23, 3  # kinds of symbols: method, field, constant, struct, namespace


def symbol(text, name, kind, part, selected, children=(), detail=None):
    """A symbol: the range of the part, and that of its name."""
    found = {"name": name, "kind": kind, "range": text.range(*part), "selectionRange": text.range(*selected)}
    if detail:
        found["detail"] = detail
    if children:
        found["children"] = list(children)
    return found


def of_token(token):
    return token.start, end_of(token)


def symbols(text, names):
    """The constants and the methods with their sections and fields, in the order of the text."""
    found = [(it.start, symbol(text, it.name.text, CONSTANT, (it.start, it.end), of_token(it.name))) for it in names.constants]
    for it in names.methods:
        parameters = "(%s)" % ", ".join(token.text for token in it.parameters) if it.parameters else None
        found.append((it.start, symbol(text, it.name.text, METHOD, (it.start, it.end), of_token(it.name), sections(text, it), parameters)))
    return [it for _, it in sorted(found, key=lambda it: it[0])]


def sections(text, method):
    for it in method.sections:
        is_format = it.word.text == LISTED
        name = it.name or it.word
        listed = [one for one in it.statements if is_name(one[0])]
        fields = [symbol(text, one[0].text, FIELD, (one[0].start, end_of(one[-1])), of_token(one[0])) for one in listed]
        yield symbol(text, name.text, FORMAT if is_format else SECTION, (it.start, it.end), of_token(name), fields, it.word.text if it.name else None)


def flat(uri, symbols, container=None):
    """The same for an editor that takes no symbols inside others."""
    for it in symbols:
        found = {"name": it["name"], "kind": it["kind"], "location": {"uri": uri, "range": it["range"]}}
        yield {**found, "containerName": container} if container else found
        yield from flat(uri, it.get("children", ()), it["name"])


def folds(text):
    """What may be folded: what stands between brackets `{` and `}` of several lines, comments of several lines, and rows of comments."""
    found, open_at, row = [], [], None
    for it in TOKEN.finditer(text.text):
        word = it.group()
        if it.lastgroup == "space" and not word.isspace():
            first = text.line_of(it.start())
            if word.startswith("//"):
                row = rowed(found, row, first)
                continue
            fold(found, first, text.line_of(it.end()), "comment")
        if word == "{":
            open_at.append(text.line_of(it.start()))
        elif word == "}" and open_at:
            fold(found, open_at.pop(), text.line_of(it.start()))
        row = row if word.isspace() else None
    return found


def fold(found, first, last, kind=None):
    """Notes lines that may be folded, where they are several."""
    if last > first:
        found.append({"startLine": first, "endLine": last, **({"kind": kind} if kind else {})})


def rowed(found, row, line):
    """The row of comments that one of a line goes on with, or begins."""
    if row is not None and row["endLine"] == line - 1:
        if row["endLine"] == row["startLine"]:
            found.append(row)
        row["endLine"] = line
        return row
    return {"startLine": line, "endLine": line, "kind": "comment"}
