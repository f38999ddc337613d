"""Whether the pages of PAGES have no sentence above MOST words, and no page of docs/ a line of prose above WIDEST characters; and whether docs/GLOSSARY.md has
its terms in their order, and those without which no page is understood.

A sentence ends at `.`, `:`, `;`, `?` or `!` before a blank, at the end of a paragraph, of an item of a list, and of a cell of a table. Blocks of code are left out, and a piece of code in a
line is one word."""
import re
import sys

from .program import DOCS, ROOT

PAGES = [ROOT / "README.md", *(DOCS / (it + ".md") for it in ("TUTORIAL", "USAGE", "FAULTS", "LOSS", "TUNING"))]
MOST, WIDEST = 30, 160
BLOCK = re.compile(r"^```.*?^```$", re.DOTALL | re.MULTILINE)
ITEM = re.compile(r"^\s*(?:- |\d+\. )")
END = re.compile(r"(?<=[.?!])[)*]*\s+(?!\d)")
TERMS = ("asked field", "bundle", "certificate", "context", "filling", "format", "item", "method", "packet", "prefix", "profile", "reference", "reported", "side", "top")
LENGTHS = {"README.md": 150, "TUTORIAL.md": 700}


def paragraphs(text):
    """The paragraphs, items and cells of a page, each as one line."""
    found = []
    for line in [*BLOCK.sub("", text).split("\n"), ""]:
        if line.startswith(("|", "#")) or not line.strip() or ITEM.match(line) or not found:
            found += line.strip("#|").split("|") if line.startswith("|") else [line]
            if line.startswith(("|", "#")):
                found.append("")
        else:
            found[-1] += " " + line.strip()
    return found


def sentences(text):
    for it in paragraphs(text):
        whole = re.sub(r"`[^`]*`", "code", it)
        yield from END.split(whole)


def main():
    wrong, count = [], 0
    for path in PAGES:
        for it in sentences(path.read_text()):
            count += 1
            if len(it.split()) > MOST:
                wrong.append("%s: %d words: %s" % (path.name, len(it.split()), it.strip()))
    for path in [ROOT / "README.md", *DOCS.glob("*.md")]:
        lines = path.read_text().splitlines()
        wrong += ["%s:%d: %d characters" % (path.name, at, len(it)) for at, it in enumerate(lines, 1) if len(it) > WIDEST and not it.startswith("|")]
        if len(lines) > LENGTHS.get(path.name, len(lines)):
            wrong.append("%s has %d lines, and at most %d are due" % (path.name, len(lines), LENGTHS[path.name]))
    terms = re.findall(r"^\| ([^|]+?) \| [^|]+ \| [^|]*\|$", (DOCS / "GLOSSARY.md").read_text(), re.MULTILINE)[1:]
    wrong += ["GLOSSARY.md: %s stands after %s" % pair for pair in zip(terms[1:], terms) if pair[0].lower() < pair[1].lower()]
    wrong += ["GLOSSARY.md lacks %s" % it for it in TERMS if it not in terms]
    print(*wrong, sep="\n" if wrong else "", end="\n" if wrong else "")
    print("sentences: %d looked at, %d wrong" % (count, len(wrong)))
    return 1 if wrong else 0


if __name__ == "__main__":
    sys.exit(main())
