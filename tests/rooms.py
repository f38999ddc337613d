"""Two parts of docs/ROOMS.md that are made of the sources: where the cases of a type are told apart, and how many crates are proved again where one changes.
`python3 -m tests.rooms --write` makes them anew.

A file is named where its code names each case of the type, so that one more case wants a line there. One that names some cases alone, and takes the others
together, isn't."""
import pathlib
import re
import sys
import textwrap

from .readmes import ROOT, WIDTH, crates

PAGE = ROOT / "docs" / "ROOMS.md"
CASES, COUNTS = "## Where the cases of a type are told apart\n", "## What is proved again\n"
COLUMNS = 3  # rows side by side in the table of counts
# what is new, and the type that then has one case more, with its crate
TYPES = [
    ("operator in the text of a profile", "text_tree", "Operator"),
    ("operator of whole numbers", "sem_expr", "Operator"),
    ("comparison", "sem_expr", "Comparison"),
    ("library method", "sem_profile", "Library"),
    ("kind of encoding", "sem_profile", "Encoding"),
    ("kind of constraint", "sem_profile", "Constraint"),
    ("part of a packet in which fields stand", "sem_profile", "Part"),
    ("step of a plan", "cert_types", "Step"),
    ("node of a decision tree", "cert_types", "Node"),
    ("fault of a certificate", "cert_rules", "CheckFault"),
    ("version of the line of flows", "walk_line", "LineVersion"),
    ("form of an answer", "tool_words", "Form"),
]


def sources():
    """The text of each file of the crates, without comments, by crate and name."""
    files = sorted((ROOT / "crates").glob("*/src/**/*.rt"))
    return {(it.relative_to(ROOT).parts[1], str(pathlib.Path(*it.relative_to(ROOT).parts[2:]))): re.sub(r"//.*", "", it.read_text()) for it in files}


def cases_of(texts, crate, name):
    """The cases of a type."""
    for (owner, _), text in texts.items():
        if owner == crate and (found := re.search(r"^pub enum %s(?:<[^>]*>)? \{\n(.*?)^\}" % name, text, re.M | re.S)):
            return re.findall(r"^    ([A-Z]\w*)", found[1], re.M)
    sys.exit("rooms: %s has no type %s" % (crate, name))


def rooms_of(texts, crate, name):
    """The files that name each case of a type, crate by crate."""
    cases, found = cases_of(texts, crate, name), {}
    for (owner, file), text in texts.items():
        if stands_on(texts, owner, crate) and all(re.search(r"\b%s::%s\b" % (name, it), text) for it in cases):
            found.setdefault(owner, []).append(file)
    return found


def stands_on(texts, owner, crate):
    """Whether sources of a crate name another one, or are its own."""
    return owner == crate or any(it == owner and re.search(r"\b%s::" % crate, text) for (it, _), text in texts.items())


def cases():
    """A point of the list for each type."""
    texts, out = sources(), ""
    for what, crate, name in TYPES:
        told = "; ".join("%s %s" % (owner, ", ".join(files)) for owner, files in rooms_of(texts, crate, name).items())
        point = "- **one more %s** (%s `%s`): %s" % (what, crate, name, told or "nowhere")
        out += textwrap.fill(point, WIDTH, subsequent_indent="  ", break_long_words=False, break_on_hyphens=False) + "\n"
    return out


def counts():
    """The table of how many crates stand above each, those with most first, down one column after the other."""
    below = crates()
    above = {it: {other for other in below if it in below_all(below, other)} for it in below}
    rows = sorted(below, key=lambda it: -len(above[it]))
    cells = ["%s | %d | %d" % (it, len(above[it]), sum(it in rest for rest in below.values())) for it in rows]
    height = -(-len(cells) // COLUMNS)
    cells += [" | | "] * (height * COLUMNS - len(cells))
    lines = ["| %s |\n" % " | ".join(cells[at::height]) for at in range(height)]
    return "| Crate | Above | Direct |" + " Crate | Above | Direct |" * (COLUMNS - 1) + "\n" + "|---" * 3 * COLUMNS + "|\n" + "".join(lines)


def below_all(below, name):
    """All crates on which one stands."""
    found = set()
    todo = list(below[name])
    while todo:
        it = todo.pop()
        if it not in found:
            found.add(it)
            todo += below[it]
    return found


def parted(text, heading, mark):
    """A page before, within and behind the lines that begin with a mark, or go on from such a line, below a heading."""
    begin = text.index("\n" + mark, text.index(heading)) + 1
    found = re.compile(r"(?:(?:%s|  ).*\n)+" % re.escape(mark)).match(text, begin)
    return text[:begin], found[0], text[found.end():]


def main():
    text, wrong = PAGE.read_text(), 0
    for heading, mark, due in ((CASES, "- ", cases()), (COUNTS, "|", counts())):
        before, stands, after = parted(text, heading, mark)
        if "--write" in sys.argv[1:]:
            text = before + due + after
            PAGE.write_text(text)
        else:
            for one, other in zip((stands + "\n").splitlines(), (due + "\n").splitlines()):
                if one != other:
                    wrong += 1
                    print("docs/ROOMS.md: of the sources comes %s" % other)
            wrong += stands.count("\n") != due.count("\n")
    if "There are %d crates." % len(crates()) not in text:
        wrong += 1
        print("docs/ROOMS.md: there are %d crates" % len(crates()))
    print("rooms: %d types, %d crates, %d wrong" % (len(TYPES), len(crates()), wrong))
    return 1 if wrong else 0


if __name__ == "__main__":
    sys.exit(main())
