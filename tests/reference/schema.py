"""A validator of JSON Schema (draft 2020-12), for the keywords that docs/schema/ uses. Any other keyword is refused, so that none is passed over."""
import json
import re

from ..program import DOCS

PATH = DOCS / "schema" / "objects.json"
SAID = {"$schema", "title", "description", "$defs"}  # keywords that refuse nothing


class Unknown(Exception):
    """A keyword that isn't known here."""


def is_number(it):
    return isinstance(it, (int, float)) and not isinstance(it, bool)


TYPES = {
    "object": lambda it: isinstance(it, dict),
    "array": lambda it: isinstance(it, list),
    "string": lambda it: isinstance(it, str),
    "integer": lambda it: isinstance(it, int) and not isinstance(it, bool),
    "number": is_number,
    "null": lambda it: it is None,
}


def same(one, other):
    """Whether two values of JSON are the same: a number is no truth value."""
    return one == other and isinstance(one, bool) == isinstance(other, bool)


class Schema:
    """A schema with its definitions."""

    def __init__(self, text):
        self.whole = json.loads(text)
        self.keywords = {
            "$ref": lambda it, named: self.allows(it, self.named(named)),
            "anyOf": lambda it, several: any([self.allows(it, one) for one in several]),
            "type": lambda it, kinds: any(TYPES[kind](it) for kind in ([kinds] if isinstance(kinds, str) else kinds)),
            "const": same,
            "enum": lambda it, several: any(same(it, one) for one in several),
            "properties": lambda it, known: not isinstance(it, dict) or all([self.allows(it[key], one) for key, one in known.items() if key in it]),
            "required": lambda it, keys: not isinstance(it, dict) or all(key in it for key in keys),
            "items": lambda it, one: not isinstance(it, list) or all([self.allows(each, one) for each in it]),
            "minItems": lambda it, count: not isinstance(it, list) or len(it) >= count,
            "minLength": lambda it, count: not isinstance(it, str) or len(it) >= count,
            "minimum": lambda it, least: not is_number(it) or it >= least,
            "maximum": lambda it, most: not is_number(it) or it <= most,
            "pattern": lambda it, pattern: not isinstance(it, str) or re.search(pattern, it, re.ASCII) is not None,
        }
        self.judge(self.whole)

    def named(self, reference):
        """What a reference inside of the schema names."""
        found = self.whole
        for key in reference.removeprefix("#/").split("/"):
            found = found[key]
        return found

    def of(self, name):
        """A definition."""
        return self.whole["$defs"][name]

    def judge(self, schema):
        """Refuses keywords that aren't known, in all parts of a schema, and references that lead nowhere."""
        for keyword, value in schema.items():
            if keyword == "additionalProperties":
                if value is not False:
                    raise Unknown("additionalProperties that isn't false")
            elif keyword not in SAID and keyword not in self.keywords:
                raise Unknown(keyword)
            inner = value.values() if keyword in ("$defs", "properties") else value if keyword == "anyOf" else [value] if keyword == "items" else []
            for it in inner:
                self.judge(it)
            if keyword == "$ref":
                self.named(value)

    def allows(self, it, schema):
        """Whether a value is as a schema says."""
        if "additionalProperties" in schema and isinstance(it, dict) and not set(it) <= set(schema.get("properties", ())):
            return False
        return all(self.keywords[keyword](it, value) for keyword, value in schema.items() if keyword in self.keywords)

    def is_ordered(self, it, schema):
        """Whether the keys of an object that a schema allows stand in the order of its properties, and so in all objects inside."""
        if "$ref" in schema:
            return self.is_ordered(it, self.named(schema["$ref"]))
        if "anyOf" in schema:
            return any(self.allows(it, one) and self.is_ordered(it, one) for one in schema["anyOf"])
        if isinstance(it, list):
            return all(self.is_ordered(each, schema.get("items", {})) for each in it)
        known = schema.get("properties", {})
        return not isinstance(it, dict) or list(it) == list(known) and all(self.is_ordered(value, known[key]) for key, value in it.items())


def stored():
    """The schema of docs/schema/."""
    return Schema(PATH.read_text())
