"""A second reading of the warnings of `lint`: which formats are never used, which names look misspelled, and which paths of a context no format has."""
from front import definitions, notation
from . import normal

SHORTEST = 3  # characters of a name that may be a slip for another


class Warnings:
    """The warnings of a profile in a context, where the formats by which nothing can be packed are known as METHOD.FORMAT."""

    def __init__(self, text, top, context, dead):
        read = normal.Text(text)
        self.methods = {it.name: normal.formats(read, it) for it in read.methods}
        self.numbers = [it.name for it in read.methods]
        self.context, self.dead, self.there = context, dead, set(context)
        self.instances = list(dict.fromkeys(self.below(top, "")))
        self.usable, self.reached = set(), {(top, "")}
        while any([self.grows(*it) for it in self.instances]):
            pass

    def below(self, method, path):
        """Each method that is called, with its path; the top first."""
        yield method, path
        for form in self.methods[method][0]:
            for it in self.called(form, path):
                yield from self.below(*it)

    @staticmethod
    def path(path, name):
        return path + "." + name if path else name

    def needed(self, method, form, path):
        """The paths of the entries that a format needs itself."""
        initial = self.methods[method][1]
        return [self.path(path, it.name) for it in form.fields if it.library() in ("static", "lsb") and it.name not in initial]

    def called(self, form, path):
        return [(self.numbers[it.encoding[1]], self.path(path, it.name)) for it in form.fields if it.is_called()]

    def goes(self, method, path):
        """Whether some format of a method can be used at a path."""
        return any((method, path, it.shown()) in self.usable for it in self.methods[method][0])

    def grows(self, method, path):
        """Whether another format of a method at a path can be used; where that is reached, it leaves entries, and what it calls is reached."""
        before = len(self.usable), len(self.there), len(self.reached)
        for form in self.methods[method][0]:
            if "%s.%s" % (method, form.shown()) not in self.dead and all(it in self.there for it in self.needed(method, form, path)) and all(self.goes(*it) for it in self.called(form, path)):
                self.usable.add((method, path, form.shown()))
                if (method, path) in self.reached:
                    self.there.update(self.path(path, it.name) for it in form.fields if it.part != "local")
                    self.reached.update(self.called(form, path))
        return (len(self.usable), len(self.there), len(self.reached)) != before

    def lacks(self, method, form, path):
        """The paths of entries that a format wants, or what it calls."""
        found = {it for it in self.needed(method, form, path) if it not in self.there}
        for callee, inner in self.called(form, path):
            if not self.goes(callee, inner):
                found = found.union({inner}, *(self.lacks(callee, it, inner) for it in self.methods[callee][0]))
        return found

    def never_used(self):
        """The formats that are never used, each with the paths that may be told."""
        found = {}
        for method, path in self.reached:
            for form in self.methods[method][0]:
                name = "%s.%s" % (method, form.shown())
                if name not in self.dead and not any((method, it, form.shown()) in self.usable for callee, it in self.reached if callee == method):
                    found.setdefault(name, set()).update(self.lacks(method, form, path))
        return found

    def unknown(self):
        """The paths of the context at which no format has a field."""
        every = {self.path(path, it.name) for method, path in self.instances for form in self.methods[method][0] for it in form.fields if it.part != "local"}
        return [it for it in self.context if it not in every]

    def misspelled(self):
        """Of each format the names that it lists alone, with the header fields of which each may be a slip."""
        found = {}
        for method in dict.fromkeys(it for it, _ in self.instances):
            forms = self.methods[method][0]
            header = [it.name for it in forms[0].fields if it.part == "header"]
            for form in forms:
                for field in form.fields:
                    meant = {it for it in header if is_slip(field.name, it)}
                    if field.part == "local" and meant and sum(field.name in it.listing for it in forms) == 1:
                        found["%s.%s" % (method, form.shown()), field.name] = meant
        return found


def is_slip(one, two):
    """Whether two names are a letter apart: another one, or one too many in either."""
    if min(len(one), len(two)) < SHORTEST or abs(len(one) - len(two)) > 1:
        return False
    if len(one) == len(two):
        apart = [pair for pair in zip(one, two) if pair[0] != pair[1]]
        return len(apart) == 1 and all(it.isalpha() for it in apart[0])
    longer, shorter = sorted((one, two), key=len, reverse=True)
    return any(longer[at].isalpha() and longer[:at] + longer[at + 1:] == shorter for at in range(len(longer)))


def places(text):
    """The line and the column of each method's name."""
    return {it.name: "%d:%d" % (text.count("\n", 0, it.start) + 1, it.start - text.rfind("\n", 0, it.start))
            for it in definitions.definitions(notation.tokens_of(text)) if it.kind == "method"}
