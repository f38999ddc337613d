"""Whether the built program accepts each profile that docs/NOTATION.md shows as an example; and whether docs/FAULTS.md has each code of docs/FORMATS.md."""
import re
import sys

from .program import DOCS, bundle, run

BLOCK = re.compile(r"^```(\w*)\n(.*?)^```$", re.DOTALL | re.MULTILINE)
CODE = re.compile(r"(?<![\w-])([EKVPIFULC]\d{1,2})\b")
TOLD = re.compile(r"\*\*([EKVPIFULC]\d{1,2})\b")
METHOD = re.compile(r"^(\w+)(?:\(.*\))?$", re.MULTILINE)


def notation():
    """What is wrong with the examples of the notation, and how many there are."""
    wrong, count = [], 0
    for kind, profile in BLOCK.findall((DOCS / "NOTATION.md").read_text()):
        if kind == "rohcfn":
            top = METHOD.findall(profile)[-1]
            printed, _ = run(bundle("check --top %s" % top, profile))
            wrong += [] if printed == "accepted\n" else ["notation: %s: %s" % (top, printed.rstrip())]
            count += 1
    return wrong, count


def codes():
    """The codes of faults of which nothing is said, and how many there are."""
    known = set(CODE.findall((DOCS / "FORMATS.md").read_text()))
    told = set(TOLD.findall((DOCS / "FAULTS.md").read_text()))
    return ["faults: %s" % it for it in sorted(known ^ told)], len(known)


def main():
    parts = [notation(), codes()]
    wrong = [it for faults, _ in parts for it in faults]
    for it in wrong:
        print(it)
    print("pages: %d examples of the notation, %d codes of faults, %d wrong" % (*[count for _, count in parts], len(wrong)))
    sys.exit(1 if wrong or not all(count for _, count in parts) else 0)


if __name__ == "__main__":
    main()
