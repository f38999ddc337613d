"""Walks through README.md and docs/TUTORIAL.md: each call in a block `sh` is made, in a copy, and has to print what stands below it. The tutorial's changes have to
be those between its files, its other blocks stand in them, and its steps have the files that `bin/rohcfn` is called with."""
import difflib
import re
import shutil
import subprocess
import sys
import tempfile

from .counting import Checks
from .files import Place
from .program import DOCS, EXAMPLES, ROOT, built

BLOCK = re.compile(r"^```(\w*)\n(.*?)^```$", re.DOTALL | re.MULTILINE)
DRAWN = ("+--", "$ PATH=")  # blocks that are no file: the drawing at the head, and how the calls are made

check = Checks("walks")


def calls(page):
    """The calls of a page, each with what it prints."""
    for kind, block in BLOCK.findall(page):
        if kind == "sh":
            for call in block.removeprefix("$ ").split("\n$ "):
                words, _, due = call.partition("\n")
                yield words, due.rstrip("\n")


def walk(name, page, folder, place):
    """Makes the calls of a page in a folder."""
    environment = {**place.environment, "PATH": "%s:%s" % (place.root / "bin", place.environment["PATH"])}
    count = 0
    for words, due in calls(page):
        ran = subprocess.run(["bash", "-c", words], cwd=folder, env=environment, stdout=subprocess.PIPE, stderr=subprocess.STDOUT, timeout=30, check=False)
        check("%s: %s" % (name, words), ran.stdout.decode().rstrip("\n") == due, ran.stdout.decode())
        count += 1
    check("%s: there are calls" % name, count > 2)


def changes(old, new):
    """The lines of the changes between two files of the tutorial, as the page shows them."""
    texts = [(EXAMPLES / "tutorial" / it).read_text().splitlines() for it in (old, new)]
    return [it.rstrip() for it in difflib.unified_diff(*texts, old, new, lineterm="", n=1) if not it.startswith("@@")]


def shown(page):
    """The changes and files that the tutorial shows."""
    files = [it.read_text() for it in sorted((EXAMPLES / "tutorial").iterdir()) if it.suffix in (".fn", ".items", "") and it.is_file()]
    for kind, block in BLOCK.findall(page):
        lines = block.splitlines()
        if kind == "diff":
            check("the changes %s" % lines[:2], lines == changes(lines[0][4:], lines[1][4:]), lines)
        elif kind == "" and not any(it in block for it in DRAWN):
            check("a block that is in no file", any(block in it for it in files), block)


def main():
    readme, tutorial = (ROOT / "README.md").read_text(), (DOCS / "TUTORIAL.md").read_text()
    with tempfile.TemporaryDirectory() as name:
        place = Place(name, "a copy", built())
        shutil.copytree(EXAMPLES, place.root / "examples")
        walk("README.md", readme, place.root, place)
        walk("docs/TUTORIAL.md", tutorial, place.root / "examples" / "tutorial", place)
    shown(tutorial)
    for it in set(re.findall(r"(?<![\w/])(?:examples|docs|bin|front|tests|man|editors|bench|\.ci)/[\w./-]*\w", readme)):
        check("a file that README.md names: %s" % it, (ROOT / it).exists())
    example = BLOCK.findall(readme)[0][1]
    check("the example is examples/probe.fn", example == (EXAMPLES / "probe.fn").read_text())
    return check.status()


if __name__ == "__main__":
    sys.exit(main())
