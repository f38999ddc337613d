"""Makes the README of each crate of its sources, and compares those that stand there: `python3 -m tests.readmes --write` makes them anew.

A README says what the crate is for, its main types and functions with the names of their clauses, its definitions and laws, what it stands on and what stands
on it, and where its proofs are. Main are those that most other crates name; where none does, those with most clauses."""
import pathlib
import re
import sys
import textwrap

ROOT = pathlib.Path(__file__).resolve().parent.parent
TYPES, FUNCTIONS = 2, 3  # how many of them a README names
MANY = 12  # crates that it names, where more stand on one
WIDTH = 160
ITEM = re.compile(r"^(?P<in>    )?pub (?:unsafe )?(?:extern \"C\" )?(?P<kind>fn|struct|enum) (?P<name>\w+)", re.M)
CLAUSE = re.compile(r"\bensures (\w+) \{|\bensures (\{)")


def crates():
    """The crates of this repository, and on which of them each stands."""
    lines = dict(it.split(":", 1) for it in (ROOT / "crates.txt").read_text().splitlines() if it.strip())
    names = [it.split()[0] for it in lines]
    return {name: [it for it in rest.split() if it in names] for name, rest in zip(names, lines.values())}


def first_sentence(text):
    """The first sentence of a comment whose lines are joined."""
    text = " ".join(text.split())
    found = re.match(r"(.*?[.?])(?: [A-Z`(]|$)", text)
    return found[1] if found else text


def comment_above(lines, at, mark):
    """The comment of the lines just above one, without attributes between."""
    found = []
    at -= 1
    while at >= 0 and lines[at].strip().startswith("#["):
        at -= 1
    while at >= 0 and lines[at].strip().startswith(mark):
        found.insert(0, lines[at].strip()[len(mark):].strip())
        at -= 1
    return " ".join(found)


def clauses_of(lines, at):
    """The names of the clauses of the function that begins at a line; one without a name is `ensures`."""
    found = []
    for line in lines[at + 1:]:
        if line.strip() == "{" or line.startswith("}") or line.rstrip().endswith(";") or ITEM.match(line):
            break
        found += [one or "ensures" for one, _ in CLAUSE.findall(line)]
    return found


def items_of(folder):
    """The public items of a crate: name, whether it is a function, what it is for, its clauses."""
    found = {}
    for file in sorted((folder / "src").rglob("*.rt")):
        lines, owner = file.read_text().splitlines(), None
        for at, line in enumerate(lines):
            if begun := re.match(r"impl(?:<[^>]*>)? (\w+)", line):
                owner = begun[1] if " for " not in line else None
            item = ITEM.match(line)
            if not item or not (about := comment_above(lines, at, "///")) or item["in"] and not owner:
                continue
            name = "%s::%s" % (owner, item["name"]) if item["in"] else item["name"]
            found.setdefault(name, (name, item["kind"] == "fn", first_sentence(about), clauses_of(lines, at) if item["kind"] == "fn" else []))
    return list(found.values())


def named_by(name, others):
    """How many of these texts name an item: a function of a type is not looked for."""
    return sum(1 for it in others if re.search(r"\b%s\b" % name, it))


def main_of(items, others, count):
    """So many items, those that most of the texts name first."""
    return sorted(items, key=lambda it: (-named_by(it[0], others), -len(it[3])))[:count]


def told(items):
    """Items with the names of their clauses."""
    found = []
    for name, _, about, clauses in items:
        named = ", ".join(dict.fromkeys(it for it in clauses if it != "ensures"))
        found.append("`%s`%s: %s" % (name, " (%s %s)" % ("clauses" if "," in named else "clause", named) if named else "", about))
    return found


def title_of(file, mark):
    """The first sentence of the first comment of a file."""
    lines = file.read_text().splitlines()
    begin = next((at for at, it in enumerate(lines) if it.startswith(mark)), len(lines))
    end = next((at for at in range(begin, len(lines)) if not lines[at].startswith(mark)), len(lines))
    return first_sentence(" ".join(it[len(mark):].strip() for it in lines[begin:end]))


def listed(head, found):
    """A point of a list: what it is of, and one thing or several below it."""
    if len(found) < 2:
        return filled("- **%s**: %s" % (head, found[0] if found else "none"), "  ")
    return "- **%s**:\n" % head + "".join(filled("  - " + it, "    ") for it in found)


def filled(text, indent):
    return textwrap.fill(text, WIDTH, subsequent_indent=indent, break_long_words=False, break_on_hyphens=False) + "\n"


def pages_of(folder):
    """The pages of a crate's definitions, but for that of its laws, which have a line of their own."""
    return [it for it in sorted((folder / "specs").glob("*.antt")) if it.name not in ("Lib.antt", "Laws.antt")]


def uses_of(name):
    """What a crate's sources name of others."""
    files = (ROOT / "crates" / name / "src").rglob("*.rt")
    return "\n".join(re.findall(r"^use [^;]*;", "\n".join(it.read_text() for it in files), re.M))


def readme(name, below, above, uses):
    """The README of a crate."""
    folder = ROOT / "crates" / name
    top = next(it for it in (folder / "src" / "lib.rt", folder / "src" / "main.rt") if it.exists())
    items = items_of(folder)
    laws = re.findall(r"^pub fn (\w+)", (folder / "src" / "laws.rt").read_text(), re.M) if (folder / "src" / "laws.rt").exists() else []
    lemmas = sorted(it.stem for it in (folder / "proofs").glob("*.antt") if it.stem != "Lib")
    points = [
        ("Main types", told(main_of([it for it in items if not it[1]], uses, TYPES))),
        ("Main functions", told(main_of([it for it in items if it[1] and it[0] not in laws], uses, FUNCTIONS))),
        ("Laws", [", ".join("`%s`" % it for it in laws)] if laws else []),
        ("Definitions", ["specs/%s: %s" % (it.name, title_of(it, "-- ")) for it in pages_of(folder)]),
        ("Stands on", [", ".join(below)] if below else []),
        ("What stands on it", [", ".join(above) if len(above) <= MANY else "%d crates" % len(above)] if above else []),
        ("Proofs", ["proofs/ has a folder for each module with one for each function%s" % (", and the lemmas " + ", ".join(lemmas) if lemmas else "")]),
    ]
    about = filled(title_of(top, "//!"), "") + "\n" + "".join(listed(*it) for it in points)
    return "# %s\n\n%s\nMade of the sources by `python3 -m tests.readmes --write`.\n" % (name, about)


def main():
    every = crates()
    texts = {name: uses_of(name) for name in every}
    wrong = 0
    for name, below in every.items():
        above = [it for it, rest in every.items() if name in rest]
        due, file = readme(name, below, above, [texts[it] for it in above]), ROOT / "crates" / name / "README.md"
        if "--write" in sys.argv[1:]:
            file.write_text(due)
        elif not file.exists() or file.read_text() != due:
            wrong += 1
            print("crates/%s/README.md is not what its sources make of it" % name)
    print("readmes: %d crates, %d wrong" % (len(every), wrong))
    return 1 if wrong else 0


if __name__ == "__main__":
    sys.exit(main())
