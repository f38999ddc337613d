"""What the language server, `bin/rohcfn lsp`, tells of texts: each thing that it can, on all profiles of examples/; a profile that is typed key by key;
positions; texts of up to 1 MB.

What is due is written by hand here, or follows from the stored cases, from what the program prints of the same text, or from the tokens. No bound is a
number of seconds: what a step may take is told in units of a measured pace."""
import json
import random
import re
import sys
import tempfile
import time

from front import advice, notation
from front.server import diagnostics, layout, lengths, library, names, pages, runs, texts
from . import cases
from .counting import Checks
from .editor import HAND, URI, Editor, at, place, span
from .files import Place
from .program import DOCS, EXAMPLES, built, bundle, run

check = Checks("server")

UNITS = 300  # of the pace, that a step with a text of 1 MB may take; one is 0.01 to 0.04 seconds


def stored_profiles():
    """Each profile of examples/, with its name."""
    for path in sorted([*EXAMPLES.glob("**/*.profile"), *EXAMPLES.glob("**/*.fn")]):
        yield str(path.relative_to(EXAMPLES)), path.read_text()


def chosen(text, within):
    """The part of a text that a range is."""
    offsets = {tuple(place(text, it).values()): it for it in range(len(text), -1, -1)}
    start, end = ((it["line"], it["character"]) for it in (within["start"], within["end"]))
    return text[offsets[start]:offsets[end]]


def pace():
    """The seconds of the processor that this machine takes for a measure of work like that of the server: the least of three."""
    text = HAND * 100

    def once():
        begin = time.process_time()
        sum(len(it.group()) for it in notation.TOKEN.finditer(text))
        json.loads(json.dumps([text.splitlines()] * 4))
        return time.process_time() - begin
    return min(once() for _ in range(3))


# Positions and changes.

def positions():
    """Each offset and each position, against counting, in texts with all ends of lines and with characters beyond the basic plane."""
    draw = random.Random(7)
    for _ in range(60):
        text = "".join(draw.choice("ab\u00e9\U0001d11e\U0001d11e\r\n\r\n\ud834\n") for _ in range(draw.randrange(24)))
        held = texts.Text(text)
        for offset in range(len(text) + 1):
            inside = text[offset - 1:offset + 1] == "\r\n"
            check("a position", held.position(offset) == place(text, offset - inside), (text, offset))
            check("an offset", inside or held.offset(place(text, offset)) == offset, (text, offset))
        check("beyond a line", held.offset({"line": 0, "character": 99}) == len(re.split("\r\n|\r|\n", text)[0]), text)
        check("beyond the text", held.offset({"line": 99, "character": 0}) == len(text), text)
    held = texts.Text("a\U0001d11eb\n")
    check("inside of a character", [held.offset({"line": 0, "character": it}) for it in range(5)] == [0, 1, 1, 2, 3])
    for line, column, offset in ((1, 1, 0), (1, 3, 2), (2, 1, 4), (2, 9, 4), (3, 1, None)):
        check("as the program counts", held.of_lines(line, column) == offset, (line, column))
    check("a lone CR ends no line of the program", texts.Text("a\rb\nc").of_lines(2, 1) == 4)


def changes(editor):
    """Changes one after the other give the text that the server then speaks of, also where they stand behind characters of two units."""
    draw, text = random.Random(3), HAND
    editor.open("file:///changed", text)
    for version in range(2, 42):
        start = draw.randrange(len(text))
        end, new = min(len(text), start + draw.randrange(6)), draw.choice(["", "x", "\U0001d11e", "\r\n", "// \U0001d11e\n", "lsb"])
        whole = version % 10 == 0
        editor.change("file:///changed", version, {"text": HAND} if whole else {"range": span(text, start, end), "text": new})
        text = HAND if whole else text[:start] + new + text[end:]
    editor.change("file:///changed", 42, {"range": span(text, 0, 0), "text": "last { }\n"}, {"range": span(text, 0, 4), "text": "first"})
    found = editor.of("documentSymbol", "file:///changed")
    text = "first" + ("last { }\n" + text)[4:]
    due = [it.name.text for it in names.Names(text).methods]
    check("changes", [it["name"] for it in found if it["kind"] == 6] == due and due[0] == "first", found)
    check("changes, to the end", found[-1]["range"]["end"] == place(text, names.Names(text).methods[-1].end), found[-1])
    editor.close("file:///changed")


# What the program tells.

def due_of(text):
    """What the program itself tells of a text: the line, the column and the words of each fault and warning that has a place."""
    top = diagnostics.top_of(text)
    found = []
    for command in ("check", "lint"):
        for line in run(bundle("%s --top %s" % (command, top), text))[0].splitlines():
            if it := re.fullmatch(r"profile:(\d+):(\d+): (E\d\d) (.*)|(\d+):(\d+): warning:? (.*)", line):
                found.append((int(it.group(1) or it.group(5)), int(it.group(2) or it.group(6)), it.group(4) or it.group(7)))
            if it and it.group(3):
                return found
    return found


def offset_of(text, line, column):
    """The offset of a line and a column of the program."""
    return sum(len(it) + 1 for it in text.split("\n")[:line - 1]) + column - 1


def agrees(name, text, shown):
    """What is shown of a text stands where the program tells it. (Of faults the first alone: the program tells no others.)"""
    due = [(place(text, offset_of(text, line, column)), words) for line, column, words in due_of(text)]
    seen = [(it["range"]["start"], it["message"].partition("\n")[0]) for it in shown]
    check("told: %s" % name, seen[:len(due)] == due and (len(seen) == len(due) or shown[0].get("code", "")[:1] in "EPV"), (seen, due))


def told(editor):
    """Each profile of examples/, and some with faults."""
    for name, text in stored_profiles():
        agrees(name, text, editor.found("file:///" + name, text))
    slip = HAND.replace("irregular(width)", "iregular(width)").replace("lsb(", "lsp(")
    shown = editor.found(URI, slip)
    agrees("two slips", slip, shown)
    due = [(span(slip, at(slip, it), at(slip, it, len(it))), "E20", it) for it in ("iregular", "lsp")]
    check("two slips", [(it["range"], it["code"], it["message"].split()[1]) for it in shown] == due and {it["severity"] for it in shown} == {1}, shown)
    check("what helps", "help: do you mean `irregular`?" in shown[0]["message"], shown)
    behind = slip.replace("  COMPRESSED sent", "  /* \U0001d11e\U0001d11e */ COMPRESSED sent")
    check("behind characters of two units", editor.found(URI, behind)[0]["range"]["start"]["character"] == shown[0]["range"]["start"]["character"] + 11)
    for old, new, code, first in (("hops [8];", "hops [8]; hops [4];", "E21", "hops [8]"), ("version =:=", "sn [8]; version =:=", "E21", "sn [8]"),
                                  ("sn =:= irregular(8) [8];", "sn =:= irregular(8) [8]; sn =:= static [0];", "E24", "sn =:= irregular")):
        text = HAND.replace(old, new)
        shown = editor.found(URI, text)
        related = [chosen(text, it["location"]["range"]) for it in shown[0].get("relatedInformation", [])]
        places = [it["location"]["range"]["start"] for it in shown[0].get("relatedInformation", [])]
        check("%s and the first place" % code, shown[0]["code"] == code and related == [first.split()[0]] and places == [place(text, at(text, first))], shown)
    of_warnings(editor)
    of_certificates(editor)
    of_tops(editor)


def of_warnings(editor):
    """Warnings that stand behind what they are about in another way, or are about nothing."""
    never = "top { UNCOMPRESSED { a [8]; } COMPRESSED co { d =:= '0' [1]; a =:= static [0]; } }\n"
    words = "top.co is never used: it needs a in the context, which no format that can come before puts there"
    shown = editor.found(URI, never)
    agrees("never used", never, shown)
    check("never used", words in [it["message"] for it in shown], shown)
    meant = "top { UNCOMPRESSED { a [8]; }\n // lint: meant\n COMPRESSED co { a =:= irregular(8) [8]; } }\n"
    shown = editor.found(URI, meant)
    agrees("meant", meant, shown)
    seen = [(it["message"], it["range"]["start"]) for it in shown]
    check("meant", seen == [("nothing is warned of on this line, which says that it is meant", {"line": 1, "character": 0})], shown)


def of_certificates(editor):
    """What is told where there is no certificate: the place, the related ones, and whether one of version 2 helps."""
    text = "\n" + HAND.replace("'10' [2]", "'00' [2]").replace("// top: probe\n", "// top: probe \n")
    shown = [it for it in editor.found(URI, text) if it["code"] == "P2"]
    related = [chosen(text, it["location"]["range"]) for it in shown[0]["relatedInformation"]] if shown else []
    check("P2", [chosen(text, it["range"]) for it in shown] == ["probe"] and related == ["same", "full"] and shown[0]["severity"] == 1, shown)
    lost = "lost { UNCOMPRESSED { x [8]; } COMPRESSED { d =:= '1' [1]; } }\n"
    shown = editor.found(URI, lost)
    due = [("P1", "NoPlan lost - read x U\nno step gives the uncompressed bits of x", "lost")]
    check("P1", [(it["code"], it["message"], chosen(lost, it["range"])) for it in shown] == due, shown)
    turn = "turn { UNCOMPRESSED { x [4]; } CONTROL { s [4]; ENFORCE((x.UVALUE + 5) % 16 == s.UVALUE); } COMPRESSED { s =:= irregular(4) [4]; } }\n"
    shown = editor.found(URI, turn)
    due = [("P1", 3, "with --v2 there is a certificate, of version 2")]
    check("a certificate of version 2", [(it["code"], it["severity"], it["message"].rpartition("\n")[2]) for it in shown] == due, shown)
    waits = "t { UNCOMPRESSED { x [4]; y [4]; ENFORCE(y.UVALUE == x.UVALUE + 1); ENFORCE(x.UVALUE == y.UVALUE - 1); } COMPRESSED { d =:= irregular(1) [1]; } }\n"
    shown = [it for it in editor.found(URI, waits) if it["code"] == "P1"]
    due = [("NoPlan t - read x U y U\nthe value of x, by constraint 3, waits for the uncompressed bits of y", place(waits, 76), "x")]
    check("P1 at its constraint", [(it["message"], it["range"]["start"], chosen(waits, it["range"])) for it in shown] == due, shown)
    large = "top { UNCOMPRESSED { x [8]; } COMPRESSED { a =:= irregular(16) [16]; b =:= irregular(1) [1]; x =:= irregular(8) [8]; } }"
    seen = [(it["code"], it["message"].partition("\n")[0], it["severity"]) for it in editor.found(URI, large)]
    due = [("V6", "candidates", 1), ("lint", "top: 131072 candidates an item, and the limit is 65536", 2),
           ("lint", "top.-: 131072 candidates = a 65536 x b 2", 3)]
    check("V6", seen == due, seen)


def of_tops(editor):
    """The top is the last method, or the one that a comment names."""
    check("a top that a comment names", editor.found(URI, HAND) == [], HAND)
    for text, due in (("// top: a\nb { }\n", "a"), ("b { } //top:a \r\nc { }", "a"), ("b { }\nc(x) { }\n", "c"), ("b { } /* // top: a */", "b"),
                      ("// top: a b\nb { }", "b"), ("", "top"), ("x = 1;", "top")):
        check("the top of %r" % text, diagnostics.top_of(text) == due, diagnostics.top_of(text))
    shown = editor.found(URI, "// top: nowhere\n" + HAND.partition("\n")[2])
    check("a top that isn't there", [(it["code"], it["range"]["start"]) for it in shown] == [("E27", {"line": 0, "character": 0})], shown)
    shown = editor.found(URI, HAND + "\n=== items\n8:01\n")
    check("a line that would begin a part", [(it["range"]["start"], it["severity"]) for it in shown] == [(place(HAND + "\n", len(HAND) + 1), 1)], shown)


class Given:
    """A job of which the program is run at once, without bin/rohcfn; of copies in which faults are mended it isn't run."""

    def __init__(self, text, top):
        self.key, self.text, self.top, self.first = URI, texts.Text(text), top, True

    def ask(self, command, text):
        if not self.first and command == ["show"]:
            return b""
        self.first = False
        return run(bundle("%s --top %s" % (" ".join(command), self.top), text).encode("utf-8", "surrogatepass"))[0].encode()


def decoded(octets):
    """The text of octets, or None."""
    try:
        return octets.decode()
    except UnicodeDecodeError:
        return None


def stored_faults():
    """Each fault of the stored cases stands where the case says."""
    for path in sorted(EXAMPLES.glob("cases/*.cases")):
        for name, given, _, output in cases.stored(path):
            due = re.fullmatch(rb"profile:(\d+):(\d+): (E\d\d) (.*)\n", output)
            words = re.match(rb"=== words\n\w+ --top (\w+)\n=== profile\n", given)
            octets = given[words.end():] if words else b"\xff"
            if due is None or b"\n=== " in b"\n" + octets or (text := decoded(octets)) is None:
                continue
            job = Given(text, words.group(1).decode())
            shown = diagnostics.find(job, job.ask)
            start = place(text, offset_of(text, int(due.group(1)), int(due.group(2))))
            seen = (shown[0].get("code"), shown[0]["message"].partition("\n")[0], shown[0]["range"]["start"]) if shown else None
            check("stored: %s: %s" % (path.name, name), seen == (due.group(3).decode(), due.group(4).decode(), start), (seen, start))


# Names.

# Methods with brackets that are wider than the encoding, apart from it, negative, above 2^64, without a number; and with encodings of each kind.
BRACKETS = """K = 3;
called(p)
{
  UNCOMPRESSED { x [p, 9]; }
  COMPRESSED a { ENFORCE(p == 1); x =:= irregular(p) [p]; }
  COMPRESSED b { ENFORCE(p == 0); x =:= static [0]; d =:= '101'; }
}
%s { UNCOMPRESSED { x [%s]; y [8]; z [1, 70]; } DEFAULT { y =:= called(1) [K, K * 2]; }
  COMPRESSED a { d =:= '0'; x =:= %s [%s]; y; z =:= %s; }
  COMPRESSED b { d =:= '1'; y; x =:= called(0) [%s]; z =:= irregular(70 - K); w =:= compressed_value(K, 1) [1, 5]; } }
"""
BRACKETED = (("4", "irregular(4)", "2, 8", "static", "1, 2"), ("0 - 3, 5", "irregular(K)", "0 - 3", "lsb(K, 0)", "0 - 1, 7"),
             ("8", "lsb(4, 0)", "2^70, 4", "irregular(x.UVALUE)", "x.UVALUE, 3"), ("VARIABLE", "uncompressed_value(4, 1)", "VARIABLE", "irregular(64)", "2^64"))


def brackets():
    """The bounds where brackets narrow them, or can't, by what `show` prints."""
    for number, parts in enumerate(BRACKETED):
        text = BRACKETS % ("top%d" % number, *parts)
        bits("brackets %d" % number, text, names.Names(text))


def everywhere(editor):
    """In each profile each name has a definition, and something is told of it; what it stands for is named where its text stands."""
    for name, text in [*stored_profiles(), ("by hand", HAND)]:
        held = names.Names(text)
        for use in {it[:2] + it[3:]: it for it in held.uses}.values():
            good = use in held.every(use) and all(text[it.start:it.start + len(it.name)] == use.name for it in held.every(use))
            check("a name: %s %s" % (name, use.name), good and (use.kind == "library") == (held.definition(use) is None), use)
        due = re.findall(r"(?<![\w'.])[A-Za-z]\w*", re.sub(r"//[^\n]*|/\*.*?\*/", " ", text, flags=re.DOTALL))
        check("each name: %s" % name, [it.name for it in held.uses] == [it for it in due if it not in notation.RESERVED], [it.name for it in held.uses])
        bits(name, text, held)
        editor.open(URI, text)
        for use in list(held.uses)[::17]:
            found = editor.of("hover", URI, position=place(text, use.start))
            check("told: %s: %s" % (name, use.name), found is not None and use.name in found["contents"]["value"], found)
        if name != "by hand":
            asked(editor, name, text, list(held.uses)[::23])
        editor.close(URI)


def asked(editor, name, text, uses):
    """All else that may be asked, of a text that is open: where names stand, what may be written there, its parts, its folds and its layout."""
    check("characters of one unit: %s" % name, all(it <= "\uffff" for it in text))
    lines, words = text.split("\n"), tokens_of(text)
    for use in uses:
        where = {"position": {"line": text.count("\n", 0, use.start), "character": use.start - text.rfind("\n", 0, use.start) - 1}}
        defined, found = editor.of("definition", URI, **where), editor.of("references", URI, **where)
        places = [it["range"] for it in [*found, *([defined] if defined else [])]]
        named = [lines[it["start"]["line"]][it["start"]["character"]:it["end"]["character"]] for it in places]
        is_there = where["position"] in [it["range"]["start"] for it in found]
        check("where it stands: %s: %s" % (name, use.name), set(named) == {use.name} and is_there and (defined is None) == (use.kind == "library"), named)
        offered = [it["label"] for it in editor.of("completion", URI, **where)["items"]]
        check("offered: %s: %s" % (name, use.name), use.defines or use.kind == "format" or use.name in offered, offered)
    depth, heads = 0, []
    for word, follows in zip(words, [*words[1:], ""]):
        heads += [word] if depth == 0 and word[0].isalpha() and follows in ("=", "(", "{") else []
        depth += (word in ("{", "(")) - (word in ("}", ")"))
    seen = [it["name"] for it in editor.of("documentSymbol", URI)]
    check("symbols: %s" % name, seen == heads, (seen, heads))
    folds = editor.of("foldingRange", URI)
    check("folds: %s" % name, folds and all(it["startLine"] < it["endLine"] and re.search(r"\{|//|/\*", lines[it["startLine"]]) for it in folds), folds)
    check("an edit: %s" % name, applied_lines(lines, editor.of("formatting", URI, options={})) == layout.laid_out(text))


def applied_lines(lines, edits):
    """The text of lines after one edit of whole lines, or none."""
    if not edits:
        return "\n".join(lines)
    first, last = (edits[0]["range"][it] for it in ("start", "end"))
    assert first["character"] == 0 and last["character"] == 0, edits
    return "\n".join([*lines[:first["line"]], edits[0]["newText"] + lines[last["line"]], *lines[last["line"] + 1:]])


def tokens_of(text):
    """The tokens of a text without its comments, by another way than that of front/."""
    bare = re.sub(r"//[^\n]*|/\*.*?\*/", " ", text, flags=re.DOTALL)
    return re.findall(r"\w+|'[01]*'|=:=|\|\||&&|[=!<>]=|[^\s\w]", bare)


def bits(name, text, held):
    """The bounds of each format are those that `show` prints."""
    due = {}
    for line in run(bundle("show --top %s" % diagnostics.top_of(text), text))[0].splitlines():
        words = line.split()
        method = words[1] if words[0] == "method" else method if due or words[0] == "format" else None
        if words[0] == "format":
            due[method, words[1]] = (int(words[3]), int(words[5]))
    known = lengths.Lengths(held)
    for (method, form), bounds in due.items():
        number = known.methods[method]
        sections = held.methods[number].sections
        one = next(it for it in names.formats(held.methods[number]) if (sections[it].name.text if sections[it].name else "-") == form)
        check("bits: %s: %s.%s" % (name, method, form), known.format(number, one).compressed == bounds, (known.format(number, one), bounds))
    check("bits: %s" % name, due)


# A place of HAND (a text, and how far beyond its begin), the place of the definition, and the places of the references in the order of the text.
NAMED = (
    ("COUNT]", 0, "COUNT = ", ["COUNT = ", "COUNT]"]),
    ("WIDTH * 2", 5, "WIDTH = ", ["WIDTH = ", "WIDTH * 2", "WIDTH, 1)", "WIDTH]; check"]),
    ("width) [width]", 2, "width)\n", ["width)\n", "width];", "width) [width]", "width]; }\n  COMPRESSED kept"]),
    ("flag == 0", 0, "flag, ", ["flag, ", "flag == 1", "flag == 0"]),
    ("shared(0", 1, "shared(flag", ["shared(flag", "shared(0", "shared(kind"]),
    ("hops; sn =:= lsb", 4, "hops [8]", ["hops [8]", "hops =:= shared(0", "hops; sn =:= lsb", "hops =:= shared(kind"]),
    ("kind.CVALUE", 0, "kind =:= '10'", ["kind =:= '10'", "kind.CVALUE"]),
    ("check; }\n  COMPRESSED full", 0, "check; }\n  COMPRESSED full", ["check =:= crc", "check; }\n  COMPRESSED full"]),
    ("told =:= irregular", 0, "told [2]", ["told [2]", "told =:= static", "told =:= irregular"]),
    ("full {", 0, "full {", ["full {"]),
)


def by_hand(editor):
    """Definitions, references, what is told of names, and what may be written, in the profile by hand."""
    editor.open(URI, HAND)
    for marked, more, defined, uses in NAMED:
        where = place(HAND, at(HAND, marked, more))
        word = re.match(r"\w+", defined).group()
        found = editor.of("definition", URI, position=where)
        check("the definition of %s" % word, found == {"uri": URI, "range": span(HAND, at(HAND, defined), at(HAND, defined, len(word)))}, found)
        found = editor.of("references", URI, position=where, context={"includeDeclaration": True})
        check("the references of %s" % word, [it["range"]["start"] for it in found] == [place(HAND, at(HAND, it)) for it in uses], found)
        found = editor.of("references", URI, position=where, context={"includeDeclaration": False})
        check("the references of %s but its definition" % word, len(found) == len(uses) - 1, found)
    for marked in ("lsb(", "static [0]; }\n}", "8, 1", "'0' [1]", "/* "):
        found = editor.of("definition", URI, position=place(HAND, at(HAND, marked, 1)))
        check("no definition at %r" % marked, found is None, found)
    hovers(editor)
    completions(editor)
    outlines(editor)
    editor.close(URI)


# A place of HAND, and texts that have to stand in what is told of it.
TOLD = (
    ("lsb(WIDTH", ["lsb(k, offset)", "The last k bits", "| uncompressed | as many as the reference |", "| compressed | k |"]),
    ("uncompressed_value(", ["uncompressed_value(len, val)", "| uncompressed | len |", "| compressed | 0 |"]),
    ("static [0]; }\n}", ["as many as the reference", "| compressed | 0 |"]),
    ("hops; sn", ["UNCOMPRESSED { hops [8]; }", "A header field of `probe`.", "In the header it has 8 bits.",
                 "| same | 0 to 8 bits | `shared(0, 8)` |", "| full | 8 bits | `shared(kind.CVALUE - 1, 8)` |"]),
    ("sn [COUNT]", ["In the header it has 8 bits.", "| same | 4 bits | `lsb(WIDTH, 1)` |", "| full | 8 bits | `irregular(8)` |"]),
    ("version =:=", ["In the header it has 8 bits.", "| same | 0 bits | `uncompressed_value(8, 1)` |"]),
    ("told [2]", ["CONTROL { told [2]; }", "A control field of `probe`.", "Its value has 2 bits.",
                  "| same | 0 bits | `static` |", "| full | 2 bits | `irregular(2)` |"]),
    ("kind =:= '10'", ["COMPRESSED full { kind =:= '10' [2]; }", "A local field of `probe`.", "| full | 2 bits | `'10'` |"]),
    ("check =:= crc", ["| same | 3 bits | `crc(3, 0x06, 0x07, THIS.UVALUE, THIS.ULENGTH)` |", "| full | 3 bits |"]),
    ("shared(flag", ["shared(flag, width)", "Its header has 0 to 64 bits.", "| sent | 0 | 64 |", "| kept | 0 | 0 |"]),
    ("probe\n{", ["Its header has 24 bits.", "| same | 8 | 16 |", "| full | 23 | 23 |"]),
    ("COUNT]", ["COUNT = WIDTH * 2;", "The constant COUNT is 8."]),
    ("width];", ["a parameter of `shared`"]),
    ("full {", ["The format `full` of `probe` has 23 bits."]),
    ("THIS.", ["The whole that the method encodes"]),
    ("ULENGTH)", ["How many bits the uncompressed side has."]),
)


def hovers(editor):
    """What is told of names, words, and codes."""
    for marked, parts in TOLD:
        found = editor.of("hover", URI, position=place(HAND, at(HAND, marked, 1)))
        value = found["contents"]["value"] if found else ""
        word = re.match(r"\w+", marked).group()
        whole = span(HAND, at(HAND, marked), at(HAND, marked, len(word)))
        check("told of %s" % word, found is not None and found["range"] == whole and all(it in value for it in parts), value)
        check("told of another format: %s" % word, word != "kind" or "| same |" not in value, value)
    for marked in ("'0' [1]", "{ field", "four"):
        found = editor.of("hover", URI, position=place(HAND, at(HAND, marked, 1)))
        check("nothing is told at %r" % marked, found is None, found)
    coded = "file:///coded"
    text = HAND.replace("irregular(width)", "iregular(width)") + "// see E24, and P2\n"
    editor.open(coded, text)
    editor.told(coded)
    for where, code, said in ((at(text, "iregular", 3), "E20", "It is misspelled"), (at(text, "E24"), "E24", "Leave one, or put it into DEFAULT"),
                              (at(text, "P2", 2), "P2", "Give them bits that differ")):
        found = editor.of("hover", coded, position=place(text, where))
        value = found["contents"]["value"] if found else ""
        check("the page on %s" % code, "**%s" % code in value and said in " ".join(value.split()), value)
    editor.close(coded)
    notation_page = (DOCS / "NOTATION.md").read_text()
    for name in LIBRARY:
        given = len(library.METHODS[name].parameters)
        check("a library method: %s" % name, "| `%s` |" % library.signature(name) in notation_page and given == advice.ARGUMENTS[name], library.signature(name))
    due = set(re.findall(r"^- \*\*([A-Z]\d+)", (DOCS / "FAULTS.md").read_text(), re.MULTILINE)) | {"I2"}
    check("the page has each code", set(pages.entries()) == due, due ^ set(pages.entries()))


LIBRARY = ["uncompressed_value", "compressed_value", "irregular", "static", "lsb", "crc"]
SECTIONS = ["COMPRESSED", "CONTROL", "DEFAULT", "INITIAL", "UNCOMPRESSED"]
# A place of HAND (behind a text), a text that is written there, words that have to be offered behind it, and words that may not.
OFFERED = (
    ("kind.", "", ["CLENGTH", "CVALUE", "ULENGTH", "UVALUE"], ["kind", "THIS"]),
    ("THIS.", "UV", ["CLENGTH", "CVALUE", "ULENGTH", "UVALUE"], ["THIS"]),
    ("COMPRESSED full { kind =:=", " ", [*LIBRARY, "probe", "shared", "tail"], ["kind", "COUNT"]),
    ("COMPRESSED full { kind =:=", " l", [*LIBRARY, "shared"], ["kind"]),
    ("CONTROL { told [2]; }\n", "  ", SECTIONS, ["ENFORCE", "hops"]),
    ("COMPRESSED full {", " ", ["hops", "sn", "told", "version", "check", "kind", "ENFORCE"], ["field", "COUNT", "flag"]),
    ("DEFAULT { hops =:= shared(0, 8) [0, 8];", " h", ["hops", "sn", "told", "version", "check"], ["ENFORCE", "field"]),
    ("UNCOMPRESSED { field [", "", ["WIDTH", "COUNT", "flag", "width", "field", "THIS", "VARIABLE"], ["hops", "ENFORCE"]),
    ("hops =:= shared(kind.CVALUE - ", "", ["kind", "hops", "COUNT", "THIS"], ["flag", "field"]),
    ("COUNT = ", "W", ["WIDTH", "COUNT"], ["hops"]),
    ("COMPRESSED full {", " // h", [], ["hops"]),
    ("COMPRESSED full {", " /* \U0001d11e h", [], ["hops"]),
)


def completions(editor):
    """What may be written at places, also where a word has begun."""
    for number, (marked, written, due, other) in enumerate(OFFERED):
        text = HAND.replace(marked, marked + written, 1)
        editor.open("file:///written%d" % number, text)
        found = editor.of("completion", "file:///written%d" % number, position=place(text, at(text, marked, len(marked + written))))
        labels = [it["label"] for it in found["items"]]
        is_right = set(due) <= set(labels) and not set(other) & set(labels) and (due or not labels) and len(set(labels)) == len(labels)
        check("offered behind %r" % (marked + written), is_right, labels)
        inserts = {it["label"]: it.get("insertText") for it in found["items"]}
        if "lsb" in due:
            seen = inserts["lsb"], inserts["static"], inserts["shared"]
            check("an insert", seen == ("lsb(${1:k}, ${2:offset})", None, "shared(${1:flag}, ${2:width})"), seen)
        editor.close("file:///written%d" % number)


def outlines(editor):
    """The symbols and the folds of the profile by hand."""
    found = editor.of("documentSymbol", URI)
    check("the symbols", [it["name"] for it in found] == ["WIDTH", "COUNT", "shared", "probe", "tail"], found)
    probe = found[3]
    check("the sections", [it["name"] for it in probe["children"]] == ["UNCOMPRESSED", "CONTROL", "DEFAULT", "same", "full"], probe)
    check("the fields", [it["name"] for it in probe["children"][4]["children"]] == ["kind", "hops", "told", "sn", "check"], probe)
    check("a range", chosen(HAND, probe["range"]) == HAND[at(HAND, "probe\n{"):at(HAND, "\ntail")] and chosen(HAND, probe["selectionRange"]) == "probe", probe)
    folds = sorted((it["startLine"], it["endLine"], it.get("kind")) for it in editor.of("foldingRange", URI))
    check("the folds", folds == [(3, 7, None), (9, 15, None)], folds)
    text = "// one\n// two\n/* three\n*/\na { UNCOMPRESSED {\n} }\n// four\n\n// five\n"
    editor.open("file:///folded", text)
    folds = sorted((it["startLine"], it["endLine"], it.get("kind")) for it in editor.of("foldingRange", "file:///folded"))
    check("folds of comments", folds == [(0, 1, "comment"), (2, 3, "comment"), (4, 5, None), (4, 5, None)], folds)
    editor.close("file:///folded")


# The layout.

def without_places(printed):
    """What `show` prints without the places, which a layout changes."""
    return re.sub(r"^(\d+) \d+:\d+$", r"\1", printed, flags=re.MULTILINE)


def comments_of(text):
    """The comments of a text, by another way than that of front/."""
    return re.findall(r"//[^\n]*|/\*.*?\*/", text, re.DOTALL)


def squeezed(text, draw):
    """A text with other blanks between its tokens, as many line ends as before, and the same comments."""
    found = [""]
    for it in notation.TOKEN.finditer(text):
        word = it.group()
        if it.lastgroup == "space" and word.isspace():
            blanks = "" if found[-1].startswith("//") else " " * draw.randrange(4)  # (those behind a comment of one line are part of it)
            word = (blanks + "".join("\n" + "\t" * draw.randrange(3) for _ in range(word.count("\n")))) or " "
        found.append(word)
    return "".join(found)


def layouts(editor):
    """Each profile, laid out: its tokens and comments are the same, so is what `show` prints, a second time changes nothing, and other blanks neither."""
    draw, unchanged = random.Random(5), 0
    shown_in = ((page, (DOCS / page).read_text()) for page in ("NOTATION.md", "FROM_RFC4997.md"))
    blocks = [(page, it) for page, text in shown_in for it in re.findall(r"^```rohcfn\n(.*?)^```$", text, re.DOTALL | re.MULTILINE)]
    for name, text in [*stored_profiles(), *blocks, ("by hand", HAND)]:
        made = layout.laid_out(text)
        unchanged += made == text
        check("laid out: %s" % name, tokens_of(made) == tokens_of(text) and comments_of(made) == comments_of(text) and layout.laid_out(made) == made, made)
        check("other blanks: %s" % name, layout.laid_out(squeezed(text, draw)) == made)
        row = layout.laid_out(" ".join(tokens_of(text)))
        check("in one line: %s" % name, tokens_of(row) == tokens_of(text) and layout.laid_out(row) == row)
        top = diagnostics.top_of(text)
        shown = [without_places(run(bundle("show --top %s" % top, it))[0]) for it in (text, made, row)]
        check("shown: %s" % name, shown == shown[:1] * 3 and shown[0].startswith("method "), shown)
    check("profiles that are laid out so", unchanged > 40, unchanged)
    wild(editor)


# Texts, and how they are laid out: by hand.
LAID = (
    ("a{UNCOMPRESSED{x[8];}COMPRESSED{x=:=irregular( 8 )[ 8 ];}}", "a\n{\n  UNCOMPRESSED { x [8]; }\n  COMPRESSED { x =:= irregular(8) [8]; }\n}\n"),
    ("K=1+ - 2*( 3-X ) ^ 2;L=! true;", "K = 1 + -2 * (3 - X)^2;\nL = !true;\n"),
    ("\n\n// one\n\n\n\na ( b,c )\n{\n\n  UNCOMPRESSED {\n x[ b ] ; // two\n\n }\n\n} ;\n",
     "// one\n\na(b, c)\n{\n  UNCOMPRESSED\n  {\n    x [b]; // two\n  }\n};\n"),
    ("a { UNCOMPRESSED { x [1]; y [x.UVALUE\n+ 2]; } }", "a\n{\n  UNCOMPRESSED\n  {\n    x [1];\n    y [x.UVALUE\n      + 2];\n  }\n}\n"),
    ("a{COMPRESSED f{ENFORCE((1==2)&&true);/* one */}}", "a\n{\n  COMPRESSED f { ENFORCE((1 == 2) && true); /* one */ }\n}\n"),
    ("a { UNCOMPRESSED {\n x [1]; y [2]; // lint: meant\n z [3]; w [4];\n } }",
     "a\n{\n  UNCOMPRESSED\n  {\n    x [1]; y [2]; // lint: meant\n    z [3];\n    w [4];\n  }\n}\n"),
    ("a\r\n{\r\nUNCOMPRESSED { x [1]; } // one\r\n}\r\n", "a\r\n{\r\n  UNCOMPRESSED { x [1]; } // one\r\n}\r\n"),
    ("a { UNCOMPRESSED { x [1]; } ", "a { UNCOMPRESSED { x [1]; } "),
    ("", ""),
    ("// one", "// one\n"),
)


def wild(editor):
    """Texts by hand; what the server says; a section that is too long for a line."""
    for text, due in LAID:
        check("laid out: %r" % text, layout.laid_out(text) == due, layout.laid_out(text))
        editor.open(URI, text)
        found = editor.of("formatting", URI, options={"tabSize": 8, "insertSpaces": False})
        check("an edit: %r" % text, len(found) < 2 and applied(text, found) == due, found)
        editor.close(URI)
    page = re.search(r"^## The layout\n.*?^```\n(.*?)^```$", (DOCS / "EDITORS.md").read_text(), re.DOTALL | re.MULTILINE).group(1)
    check("the page's", layout.laid_out(page) == page and layout.laid_out(" ".join(tokens_of(page))) != page, layout.laid_out(page))
    for count, is_row in ((9, True), (30, False)):
        made = layout.laid_out("a { UNCOMPRESSED { %s} }" % ("field [8]; " * count))
        check("a section of %d fields" % count, (made.count("\n") == 4) == is_row and max(map(len, made.splitlines())) <= 160, made)


def applied(text, edits):
    """A text after one edit, or none."""
    if not edits:
        return text
    offsets = {tuple(place(text, it).values()): it for it in range(len(text), -1, -1)}
    start, end = (offsets[it["line"], it["character"]] for it in (edits[0]["range"]["start"], edits[0]["range"]["end"]))
    return text[:start] + edits[0]["newText"] + text[end:]


# As one types.

def typed(editor):
    """Each prefix of a profile, typed key by key: all that may be asked is answered at each, and at the end what is told is that of the whole. A slip that is
    typed is told, and is gone once it is mended."""
    text, uri = (EXAMPLES / "probe.fn").read_text(), "file:///typed"
    asked = ("hover", "definition", "references", "completion")
    editor.open(uri, "", 0)
    for count in range(1, len(text) + 1):
        start = place(text[:count - 1], count - 1)
        editor.change(uri, count, {"range": {"start": start, "end": start}, "text": text[count - 1]})
        numbers = [editor.begun("textDocument/" + it, textDocument={"uri": uri}, position=place(text[:count], count)) for it in asked]
        numbers += [editor.begun("textDocument/" + it, textDocument={"uri": uri}) for it in ("documentSymbol", "foldingRange", "formatting")]
        found = [editor.answer(it) for it in numbers]
        check("at each prefix", not any(isinstance(it, dict) and "code" in it for it in found), (count, found))
    agrees("typed", text, editor.told(uri, len(text)))
    slip = at(text, "irregular")
    for version, (start, end, new) in enumerate(((slip, slip + 1, ""), (slip, slip, "i")), len(text) + 1):
        editor.change(uri, version, {"range": {"start": place(text, start), "end": place(text, end)}, "text": new})
        text = text[:start] + new + text[end:]
        agrees("a slip", text, editor.told(uri, version))
    check("and mended", text == (EXAMPLES / "probe.fn").read_text())
    for count in range(0, len(text), 17):
        agrees("a prefix", text[:count], editor.found("file:///prefix", text[:count]))
    editor.close(uri)


def cuts():
    """What is known of each prefix and of texts with a part left out: no error, and all places are in the text."""
    draw = random.Random(11)
    for name, text in [("by hand", HAND), ("tcp", (EXAMPLES / "profiles" / "tcp.profile").read_text())]:
        cut = [text[:it] for it in range(0, len(text), 23 if name == "by hand" else 311)]
        for _ in range(40):
            start = draw.randrange(len(text))
            cut.append(text[:start] + draw.choice(["", "{", "}", "(", ";", "'", "/*", "COMPRESSED", "=:=", "."]) + text[start + draw.randrange(9):])
        for it in cut:
            held = names.Names(it)
            known = lengths.Lengths(held)
            for number in range(len(held.methods)):
                known.method(number)
            check("names of a text that is cut", all(it[use.start:use.start + len(use.name)] == use.name for use in held.uses), it[-60:])
            check("a layout of a text that is cut", tokens_of(layout.laid_out(it)) == tokens_of(it), it[-60:])


# Texts of 1 MB.

QUICK, MUCH = (), ("hover", "documentSymbol", "foldingRange", "formatting")


def large():
    """Texts of 0.5 to 1 MB, with what is due of each: the codes that are told; and what is asked of it."""
    calls = "".join("COMPRESSED f%d { d =:= nix(1%s); }" % (number, "+1" * 90) for number in range(40))
    yield "methods", "".join("m%d { UNCOMPRESSED { x [8]; } %s }\n" % (number, calls) for number in range(61)), ["E20"], MUCH
    slips = HAND.replace("// top: probe", "").replace("irregular", "iregular").replace("\n", " ")
    yield "a line", "/* %s */ %s" % ("\U0001d11e" * 250_000, slips), ["E20"] * 2, MUCH  # (as many as copies of 512 KiB allow)
    yield "comments", "// \U0001d11e a comment\n" * 48_000 + HAND, [], (*MUCH, "completion")
    yield "marks", "(" * (1 << 19), ["E10"], QUICK
    yield "above 1 MiB", "\n" * (1 << 20) + HAND, ["E04"], QUICK


def in_time(editor):
    """What the server takes for each of these: for a key and what is told after it, and for each thing that may be asked, at most so many units of the pace."""
    unit = pace()
    for name, text, due, asked in large():
        editor.open(URI, text)
        for step in ("a key", *asked):
            before = editor.seconds()
            if step == "a key":
                editor.change(URI, 2, {"range": {"start": place("", 0), "end": place("", 0)}, "text": " "})
                found = [(it.get("code"), it["message"]) for it in editor.told(URI, 2)]
                check("%s: what is told" % name, [code for code, _ in found] in (due, due + [None]) or found == [(None, runs.LATE)], found)
            else:
                editor.of(step, URI, position={"line": 1, "character": 9})
            took = (editor.seconds() - before) / unit
            check("%s: %s in time" % (name, step), took < UNITS, "%.0f units of %.4f s" % (took, unit))
        editor.close(URI)


def main():
    positions()
    stored_faults()
    brackets()
    cuts()
    with tempfile.TemporaryDirectory() as folder:
        place_of = Place(folder, "a copy", built())
        editor = Editor(place_of.command, cwd=place_of.files, env=place_of.environment)
        editor.begin()
        for part in (changes, told, everywhere, by_hand, layouts, typed, in_time):
            part(editor)
        check("the end", editor.end() == (0, ""))
    return check.status()


if __name__ == "__main__":
    sys.exit(main())
