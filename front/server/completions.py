"""What may be written at a place."""
from ..expressions import ATTRIBUTES
from ..notation import LIBRARY
from ..tokens import SECTIONS, TOKEN
from . import library
from .names import HEADED, LISTED, end_of, is_name

FUNCTION, METHOD, FIELD, VARIABLE, CONSTANT, KEYWORD = 3, 2, 5, 6, 21, 14  # kinds of what is offered


def offer(label, kind, detail=None, insert=None, told=None):
    """What is offered: a word, or an insert with places to fill in."""
    found = {"label": label, "kind": kind}
    if detail:
        found["detail"] = detail
    if insert:
        found.update(insertText=insert, insertTextFormat=2)
    if told:
        found["documentation"] = {"kind": "markdown", "value": told}
    return found


def call(name, parameters, has_snippets):
    """The text of a call with a place for each argument, where the editor has those."""
    if not parameters or not has_snippets:
        return None
    return "%s(%s)" % (name, ", ".join("${%d:%s}" % it for it in enumerate(parameters, 1)))


class Completions:
    """What may be written at the places of a text."""

    def __init__(self, names, has_snippets):
        self.names, self.has_snippets = names, has_snippets

    def before(self, offset):
        """The tokens that end before a place, without the word that is being written there."""
        found = [it for it in self.names.tokens if it.start < offset]
        if found and end_of(found[-1]) >= offset and found[-1].kind == "name":
            found.pop()
        return found

    def at(self, offset):
        """What is offered at an offset."""
        if self.is_in_comment(offset):
            return []
        before = self.before(offset)
        last = before[-1].text if before else ""
        if last == ".":
            return [offer(it, KEYWORD) for it in ATTRIBUTES]
        if last == "=:=":
            return [*self.libraries(), *self.methods()]
        number, at = self.names.section_at(offset)
        if number is None:
            return [offer(it.name.text, CONSTANT) for it in self.names.constants] if last and last not in ("}", ";") else []
        method = self.names.methods[number]
        depth = sum((it.text == "{") - (it.text == "}") for it in before if it.start >= method.start)
        if depth < 2 or at is None:
            return [offer(it, KEYWORD) for it in SECTIONS] if depth == 1 else []
        word = method.sections[at].word.text
        if last in ("{", ";"):
            return [*self.fields(method, at), *([] if word in ("INITIAL", "DEFAULT") else [offer("ENFORCE", KEYWORD)])]
        return self.in_expression(method, at)

    def is_in_comment(self, offset):
        """Whether an offset is inside of a comment."""
        begin = max((it.start for it in self.names.tokens if it.start < offset), default=0)
        for it in TOKEN.finditer(self.names.text, begin):
            if it.start() >= offset:
                return False
            if it.lastgroup == "space" and not it.group().isspace() and (it.end() > offset or it.group().startswith("//") and it.end() == offset):
                return True
        return False

    def libraries(self):
        for it in LIBRARY:
            yield offer(it, FUNCTION, library.signature(it), call(it, library.METHODS[it].parameters, self.has_snippets), library.told(it))

    def methods(self):
        for it in self.names.methods:
            parameters = [token.text for token in it.parameters]
            yield offer(it.name.text, METHOD, "(%s)" % ", ".join(parameters) if parameters else None, call(it.name.text, parameters, self.has_snippets))

    def fields(self, method, at):
        """The fields of a method that a section may name: those of the header and of CONTROL, and local ones."""
        own, found = method.sections[at].word.text, {}
        for section in method.sections:
            word = section.word.text
            if word in HEADED or word == LISTED and own in ("DEFAULT", LISTED):
                for it in section.statements:
                    if is_name(it[0]):
                        found.setdefault(it[0].text, word)
        return [offer(name, FIELD, {"UNCOMPRESSED": "header field", "CONTROL": "control field"}.get(word, "local field")) for name, word in found.items()]

    def in_expression(self, method, at):
        """What may stand in an expression: fields, parameters, constants and words."""
        words = [offer(it, KEYWORD) for it in ("THIS", "VARIABLE", "true", "false")]
        parameters = [offer(it.text, VARIABLE, "parameter") for it in method.parameters]
        constants = [offer(it.name.text, CONSTANT, self.value(it.name.text)) for it in self.names.constants]
        return [*self.fields(method, at), *parameters, *constants, *words]

    def value(self, name):
        found = self.names.values.get(name)
        return None if found is None else str(found)
