"""What the program tells of a text, taken from the objects that `check --explain` and `lint` print with --json (docs/FORMATS.md, JSON lines). All that knows
these objects is here."""
import collections
import json
import re

# What is told: a code (that of a fault, or `lint`), words, the line and the column where they are told, how grave it is, the names of the method and of the
# formats that it is about, and the lines that explain it.
Told = collections.namedtuple("Told", "code words place severity names more", defaults=((), ()))

ERROR, WARNING, INFORMATION = 1, 2, 3  # as the protocol counts them
COUNTED = re.compile(r"\d+(?: or more)? candidates? ?=? ?.*")  # what tells how the number of the warning above comes about
BEHIND = "is never used: "  # words that stand behind what they are about with a blank; all others with a colon
REFUSING = ("prove", "check")  # the parts that refuse a profile without a fault


def objects(printed):
    """The objects of what is printed. A line that is none tells nothing."""
    for line in printed.splitlines():
        try:
            found = json.loads(line)
        except ValueError:
            continue
        if isinstance(found, dict):
            yield found


def of_kind(printed, kind):
    return [it for it in objects(printed) if it.get("kind") == kind]


def place_of(it):
    return it["line"], it["column"]


def fault(printed):
    """The fault of the text that `check` tells, or None."""
    found = next((it for it in of_kind(printed, "fault") if it["part"] == "profile"), None)
    return None if found is None else Told(found["code"], found["text"], place_of(found), ERROR)


def refusal(printed):
    """Why `check --explain` tells that there is no certificate, or None where it accepts the profile, or tells a fault of the text."""
    found = next((it for it in of_kind(printed, "fault") if it["part"] in REFUSING), None)
    if found is None:
        return None
    notes = [it for it in of_kind(printed, "note") if it["part"] == "profile"]
    return Told(found["code"], found["text"], place_of(notes[0]) if notes else None, ERROR, tuple(found["text"].split()[1:]), tuple(it["text"] for it in notes))


def is_accepted(printed):
    return bool(of_kind(printed, "accepted"))


def warning_words(it):
    """A warning as `lint` words it."""
    if it["subject"] is None:
        return it["text"]
    return it["subject"] + (" " if it["text"].startswith(BEHIND) else ": ") + it["text"]


def warnings(printed):
    """What `lint` warns of in the text."""
    for it in of_kind(printed, "warning"):
        if it["line"] is not None:
            severity = INFORMATION if COUNTED.fullmatch(it["text"]) and " limit " not in it["text"] else WARNING
            yield Told("lint", warning_words(it), place_of(it), severity)
