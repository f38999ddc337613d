"""What docs/FAULTS.md says of each code."""
import os
import re

from .. import advice

ENTRY = re.compile(r"^- (\*\*[A-Z]\d+\b.*\n(?:  .*\n)*)", re.MULTILINE)
CODE = re.compile(r"\*\*([A-Z]\d+)\b")
HELD = {}


def entries():
    """The text of each code."""
    if not HELD:
        try:
            with open(os.path.join(advice.PAGES, "FAULTS.md"), encoding="utf-8") as file:
                text = file.read()
        except OSError:
            text = ""
        for entry in ENTRY.findall(text):
            for code in CODE.findall(entry):
                HELD.setdefault(code, re.sub(r"^  ", "", entry, flags=re.MULTILINE).strip())
    return HELD


def told(code):
    """What the page says of a code, in Markdown, or None."""
    said = entries().get(code)
    return None if said is None else "%s\n\ndocs/FAULTS.md, %s" % (said, code)
