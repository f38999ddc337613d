"""Through the built program: what `lint` prints. Of the profiles of samples.py, profiles/ and bundles/, by each format of which something can be packed, it
prints nothing but what is due: for one that needs a context to begin with, for one with too many candidates, and the warnings of losses. Of drawn small
profiles each format that it names has no filling by a slow search over all headers, in contexts that are drawn (searching.py). A format that gets a part by
which nothing can be packed is named, at the place of that part: a condition above the range of its field or without a value, a number too great for its
bits, a bracket without the length of its field. A format that it says is never used has no filling in the empty context, nor in contexts that fillings lead to
from there.

Which formats don't notice a wrong reference, and which methods don't call alike, is read here once more from the text, apart from the program: of all these
profiles, of the pieces in profiles/parts/, and of drawn ones whose methods call each other. The lines have to be just those, below the lines before them."""
import itertools
import random
import re
import sys

from .program import EXAMPLES, bundle, run
from .reference import normal, samples, small
from .reference.searching import Search

LINE = re.compile(r"(\d+):(\d+): warning p\.(\w): .*: nothing fits this format")
USED = re.compile(r"\d+:\d+: warning p\.(\w+) is never used: it needs [\w.]+ in the context, which no format that can come before puts there")
UNNOTICED, UNLIKE = "a wrong reference is not noticed", "in one format and not in another: losses multiply what a receiver may hold"
ORDER = [": nothing fits this format", " is never used: ", ": is it meant?", UNNOTICED, UNLIKE, " candidate", "context: warning "]  # the lines of `lint`, from above
CALLING = 300  # drawn profiles whose methods call each other
REACHED = 12  # contexts of a drawn profile that are looked at
# parts by which nothing can be packed, where x has two bits: each with the part of it that is named, and what is said
PARTS = [
    ("ENFORCE(x.UVALUE > 3);", "x.UVALUE", "the condition is never true"),
    ("ENFORCE(1 / 0 == x.UVALUE || x.UVALUE < 4);", "1 / 0", "this has no value: it divides by 0, or its exponent is below 0"),
    ("another =:= compressed_value(2, 5);", "5", "this argument has to be from 0 to 3, and never is"),
    ("another =:= compressed_value(65, 5);", "65", "this argument has to be from 0 to 64, and never is"),
    ("another =:= compressed_value(2, 1) [3];", "[3]", "another has at least 3 and at most 2 bits compressed"),
    ("another =:= compressed_value(2, 1) [1, 3];", "[1, 3]", "another has at least 2 and at most 2 bits compressed, and this bracket has no such length"),
]
# what is due for a profile of samples.py that goes on from a given context alone, and for one that chooses two times 12 bits, which `check` refuses (V6)
DUE = {
    "both": "4:1: warning both.- is never used: it needs f.m in the context, which no format that can come before puts there\n",
    "vast": "1:1: warning vast: 16777216 candidates an item, and the limit is 65536\n1:1: warning vast.-: 16777216 candidates = a 4096 x b 4096\n",
}
METHOD = re.compile(r"^(\w+)(?:\(.*\))?$", re.MULTILINE)


def printed(profile, top):
    return run(bundle("lint --top %s" % top, profile))


# ---- the warnings of losses, by the text


class Reading(normal.Text):
    """The encodings of a text: their words, and the tokens of their arguments."""

    def expressions(self, tokens, parameters):
        return [[it.text for it in part] for part in normal.split(tokens, ",")]

    def statement(self, tokens, parameters):
        return ("ENFORCE", None, None) if tokens[0].text == "ENFORCE" else super().statement(tokens, parameters)

    def formats(self, method):
        """Of each format its name, and of each field the name, the part and the encoding, or None."""
        shared, default, listed = {}, {}, []
        for word, name, statements in self.sections(method):
            found = {it: encoding for it, encoding, _ in statements if it != "ENFORCE"}
            if word == "COMPRESSED":
                listed.append((name or "-", found))
            elif word == "DEFAULT":
                default.update(found)
            elif word != "INITIAL":
                shared.update({it: (word, encoding) for it, encoding in found.items()})
        return [(name, self.fields(own, shared, default)) for name, own in listed]

    @staticmethod
    def fields(own, shared, default):
        parts = {**shared, **{it: ("local", None) for it in own if it not in shared}}
        return [(it, part, encoding or own.get(it) or default.get(it)) for it, (part, encoding) in parts.items()]


def is_checked(fields, name):
    """Whether a checksum is over the header side of THIS or of the field."""
    return any(encoding and encoding[0] == "crc" and encoding[4][0] in ("THIS", name) and encoding[4][2] == "UVALUE" for _, _, encoding in fields)


class Losses:
    """The two warnings that are due for a profile, where formats have an obstacle by the program's own lines."""

    def __init__(self, profile, top, out):
        self.text, read = profile, Reading(profile)
        dead = set(re.findall(r"^\d+:\d+: warning (\w+\.[\w-]+): .*: nothing fits this format$", out, re.MULTILINE))
        self.names, self.top = [it.name for it in read.methods], read.numbers[top]
        self.formats = [read.formats(it) for it in read.methods]
        self.open = [[fields if "%s.%s" % (self.names[k], name) not in dead else [] for name, fields in forms] for k, forms in enumerate(self.formats)]
        self.known = {}

    def unchecked(self, fields):
        return [encoding for name, _, encoding in fields if encoding and not is_checked(fields, name)]

    def goes_wrong(self, fields):
        return any(it[0] in ("static", "lsb") or it[0] == "call" and self.is_loose(it[1]) for it in self.unchecked(fields))

    def is_loose(self, method):
        if method not in self.known:
            self.known[method] = any(self.goes_wrong(it) for it in self.open[method])
        return self.known[method]

    def reached(self, callees):
        """The top and what it reaches by calls."""
        found = [self.top]
        for method in found:
            found += sorted({it[1] for it in callees(method) if it and it[0] == "call"} - set(found))
        return sorted(found)

    def head(self, method):
        """Where the method begins."""
        place = next(it.start() for it in re.finditer(r"//[^\n]*|/\*.*?\*/|\b%s\b\s*[({]" % self.names[method], self.text, re.DOTALL) if it[0][0] != "/")
        before = self.text[:place]
        return "%d:%d: warning %s" % (before.count("\n") + 1, place - before.rfind("\n"), self.names[method])

    def unnoticed(self):
        for method in self.reached(lambda k: [it for fields in self.open[k] for it in self.unchecked(fields)]):
            wrong = [name for (name, _), fields in zip(self.formats[method], self.open[method]) if self.goes_wrong(fields)]
            yield from ("%s.%s: %s" % (self.head(method), it, UNNOTICED) for it in wrong[:1])

    def calls_unlike(self, method):
        """The fields that call, with whom, where a field calls another method or none in another format, or is of one format alone."""
        for _, fields in self.formats[method]:
            for name, part, encoding in fields:
                others = [other[1] if other and other[0] == "call" else None for _, them in self.formats[method] for it, _, other in them if it == name]
                if encoding and encoding[0] == "call" and (part == "local" or set(others) != {encoding[1]}):
                    yield name, encoding[1]

    def unlike(self):
        for method in self.reached(lambda k: [it[2] for _, fields in self.formats[k] for it in fields]):
            for name, callee in list(self.calls_unlike(method))[:1]:
                yield "%s: %s calls %s %s" % (self.head(method), name, self.names[callee], UNLIKE)


def losses_wrong(profile, top, out):
    """What is wrong with the warnings of losses among the lines, or with their order."""
    lines, due = out.splitlines(), Losses(profile, top, out)
    seen = [it for it in lines if it.endswith((UNNOTICED, UNLIKE))]
    ranks = [next(place for place, words in enumerate(ORDER) if words in it) for it in lines]
    right = [*due.unnoticed(), *due.unlike()]
    return None if seen == right and ranks == sorted(ranks) else (profile, out, right)


def draw_encoding(draw, name, below):
    """An encoding of a field, by the methods below: what the field is, and what it has beside."""
    chosen = draw.choice(["static", "lsb(4, 1)", "irregular(8)", "irregular(8)", *["call"] * 3])
    return draw.choice(below) if chosen == "call" and below else "irregular(8)" if chosen == "call" else chosen


def draw_format(draw, method, number, below):
    statements = ["d =:= '%s';" % format(number, "02b")]
    statements += ["%s =:= %s;" % (it, draw_encoding(draw, it, below)) for it in "xym"]
    statements += ["l =:= %s;" % draw.choice(below)] if below and draw.random() < 0.1 else []
    statements += ["c%d =:= crc(3, 6, 7, %s.%sVALUE, %s.%sLENGTH);" % (place, it, side, it, side) for place, it in enumerate(("THIS", "x", "y", "m")) if draw.random() < (0.2, 0.3, 0.3, 0.3)[place] for side in [draw.choice("UUUC")]]
    statements += ["ENFORCE(1 == 2);"] if draw.random() < 0.1 else []
    return "  COMPRESSED f%d { %s }\n" % (number, " ".join(statements))


def calling():
    """Profiles of some methods that call each other, by a fixed seed."""
    draw = random.Random(3843)
    for _ in range(CALLING):
        names = ["m%d" % it for it in range(draw.randrange(1, 6))]
        texts = ["%s\n{\n  UNCOMPRESSED { x; y; }\n  CONTROL { m; }\n%s}\n" % (name, "".join(draw_format(draw, name, it, names[:k]) for it in range(draw.randrange(1, 4)))) for k, name in enumerate(names)]
        yield "".join(texts), names[-1]


def pieces():
    for path in sorted((EXAMPLES / "profiles" / "parts").glob("*.profile")):
        text = path.read_text()
        yield text, METHOD.findall(text)[-1]


def losses():
    """What is wrong with the warnings of losses, one by one; that there are enough of both."""
    met = {UNNOTICED: 0, UNLIKE: 0, "": 0}
    for profile, top in itertools.chain(pieces(), calling()):
        out, status = printed(profile, top)
        for words in met:
            met[words] += words in out if words else UNNOTICED not in out and UNLIKE not in out
        yield losses_wrong(profile, top, out) if status == 0 else (profile, out)
    yield None if min(met.values()) > CALLING // 20 else tuple(met.items())


# ---- the other lines


def useful():
    """Profiles with their tops."""
    for name, text in samples.TEXTS.items():
        yield name, text, name
    for path in sorted((EXAMPLES / "profiles").glob("*.profile")):
        text = path.read_text()
        yield path.name, text, METHOD.findall(text)[-1]
    for path in sorted((EXAMPLES / "bundles").glob("*.bundle")):
        parts = dict(it.split("\n", 1) for it in path.read_text().split("=== ")[1:])
        if path.with_suffix(".expected").read_text().startswith("accepted") and "profile" in parts:
            yield path.name, parts["profile"], parts["words"].split("--top ")[1].split()[0]


def parted(out):
    """The lines of formats by which nothing can be packed, and the warnings below them."""
    lines = [it for it in out.splitlines() if not it.endswith((UNNOTICED, UNLIKE))]
    return [it for it in lines if not USED.fullmatch(it)], [it for it in lines if USED.fullmatch(it)]


def has_filling(methods, initial, form, draw):
    """Whether the format of the top has a filling: for every header, in the empty context and in some that are drawn."""
    contexts = [{}] + [{name: format(draw.randrange(4), "02b") for name in "xyms"} for _ in range(3)]
    headers = ["".join(it) for it in itertools.product("01", repeat=methods[-1].formats[0].most("U"))]
    for context, header in itertools.product(contexts, headers):
        asked = {it.name: "00" for it in methods[-1].formats[0].fields if it.asked}
        if any(it.index == form for it in Search(methods, context, initial).fillings(len(methods) - 1, (), "", header, asked)):
            return True
    return False


def fillings_in(methods, initial, context, draw):
    """The fillings of every header in a context, by values of the asked fields that are drawn."""
    fields, top = methods[-1].formats[0].fields, len(methods) - 1
    search = Search(methods, context, initial)
    for header in itertools.product("01", repeat=methods[-1].formats[0].most("U")):
        asked = {it.name: "".join(draw.choice("01") for _ in range(it.u[1])) for it in fields if it.asked}
        yield from search.fillings(top, (), "", "".join(header), asked)


def formats_met(methods, initial, draw):
    """The formats of fillings in the empty context, and in some that one filling after the other leads to from there."""
    met, contexts, place = set(), [{}], 0
    while place < len(contexts):
        found = list(fillings_in(methods, initial, contexts[place], draw))
        met |= {it.index for it in found}
        for it in draw.sample(found, min(len(found), REACHED - len(contexts))):
            contexts.append({**contexts[place], **dict(it.entries)})
        place += 1
    return met


def due_of(profile, name, base, part):
    """The profile with such a part in the format, and what is due for it."""
    text, mark, words = part
    lines = profile.split("\n")
    at = next(place for place, it in enumerate(lines) if it.startswith("  COMPRESSED %s {" % name))
    begin = lines[at].index("{") + 2
    lines[at] = lines[at][:begin] + text + " " + lines[at][begin:]
    own = "%d:%d: warning p.%s: %s: nothing fits this format" % (at + 1, begin + text.index(mark) + 1, name, words)
    due = sorted([*base, own], key=lambda it: int(it.split(":")[0]))
    return "\n".join(lines), "".join(it + "\n" for it in due)


def drawn(draw):
    """What is wrong with drawn profiles, one by one."""
    for profile, methods, initial in small.referring()[:120]:
        out, status = printed(profile, "p")
        yield losses_wrong(profile, "p", out)
        base, warned = parted(out)
        found = [LINE.fullmatch(it) for it in base]
        names = [it.name for it in methods[-1].formats]
        named = [it[3] for it in found if it]
        yield None if status == 0 and all(found) and len(set(named)) == len(named) else (profile, out)
        for name in named:
            yield (profile, out) if has_filling(methods, initial, names.index(name), draw) else None
        met = formats_met(methods, initial, draw) if warned else set()
        for name in (USED.fullmatch(it)[1] for it in warned):
            yield (profile, out) if names.index(name) in met else None
        for name, part in itertools.product(names, PARTS):
            if name not in named:
                changed, due = due_of(profile, name, base, part)
                told, status = printed(changed, "p")
                yield losses_wrong(changed, "p", told)
                yield None if ("".join(it + "\n" for it in parted(told)[0]), status) == (due, 0) else (changed, told, due)


def good():
    """What is wrong with what is told of good profiles."""
    for name, profile, top in useful():
        out, status = printed(profile, top)
        others = "".join(it + "\n" for it in out.splitlines() if not it.endswith((UNNOTICED, UNLIKE)))
        yield None if (others, status) == (DUE.get(name, ""), 0) else (name, out)
        yield losses_wrong(profile, top, out)


def main():
    passed = failed = 0
    for wrong in itertools.chain(good(), losses(), drawn(random.Random(4997))):
        passed, failed = passed + (wrong is None), failed + (wrong is not None)
        if wrong is not None and failed < 5:
            print("lint:", *wrong)
    print("lint: %d passed, %d failed" % (passed, failed))
    return 1 if failed or not passed else 0


if __name__ == "__main__":
    sys.exit(main())
