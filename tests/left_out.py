"""Whether each profile that docs/FROM_RFC4997.md shows is accepted by the built program, or is answered as the text after it says; and whether each piece of
profiles/parts/, and each profile of profiles/ that neither flows.py nor tuning.py tries, is accepted, and packs and reads what its comment says.

After a block of the page a text `COMMAND` answers `OUTPUT`, or `pack` of `ITEM` and `ITEM` answers `OUTPUT` and `OUTPUT`, is tested, and what is packed is
read back. A block marked as left out has such a text. In a piece a line `// ITEM -> PACKET`, or two with the arrow in the second, is tested so, all of them
in one context. What is due was worked by hand, the CRCs by the steps of docs/NOTATION.md; none is taken from the program."""
import re
import sys

from examples import headers, tuning
from . import program

PAGE = program.DOCS / "FROM_RFC4997.md"
BLOCK = re.compile(r"^```(rohcfn|rohcfn-left-out)\n(.*?)^```$(.*?)(?=^```|\Z)", re.DOTALL | re.MULTILINE)
CODES = "(`[^`]+`(?: and `[^`]+`)*)"
ANSWER = re.compile(r"`(\w+)`(?: of %s)? answers %s" % (CODES, CODES))
METHOD = re.compile(r"^(\w+)(?:\(.*\))?$", re.MULTILINE)
TRIAL = re.compile(r"^// (\d+:\S*(?: \S+=\S+)*)(?:\n//  )? -> (\d+:[0-9a-f]*)$", re.MULTILINE)


def answer(command, profile, name="", lines=()):
    """What the program prints of a profile, and of lines of a part."""
    top = METHOD.findall(profile)[-1]
    given = {name: "\n".join(lines) + "\n"} if lines else {}
    return program.lines(program.bundle("%s --top %s" % (command, top), profile, **given))[0]


def packs(profile, trials):
    """What is wrong with items that go as packets, one after the other, and with their way back."""
    items, packets = zip(*trials)
    packed = answer("pack", profile, "items", items)
    back = answer("unpack", profile, "packets", packets)
    due = ["%s took %s" % (item, packet.partition(":")[0]) for item, packet in trials]
    return [str(it) for it in (packed,) if it != list(packets)] + [str(it) for it in (back,) if it != due]


def codes(text):
    """What stands in marks, one after the other."""
    return re.findall("`([^`]+)`", text)


def told(profile, answers):
    """What is wrong with the answers that are told of a profile."""
    for command, items, due in answers:
        if command == "pack" and all(re.fullmatch(r"\d+:[0-9a-f]*", it) for it in codes(due)):
            yield from packs(profile, list(zip(codes(items), codes(due), strict=True)))
        elif (seen := answer(command, profile, "items", codes(items))) != codes(due):
            yield "%s: %s" % (command, seen)


def page():
    """What is wrong with the page; how many whole profiles it has, and how many that are left out."""
    wrong, counts = [], {"rohcfn": 0, "rohcfn-left-out": 0}
    for kind, profile, after in BLOCK.findall(PAGE.read_text()):
        answers = ANSWER.findall(" ".join(after.split()))
        faults = list(told(profile, answers))
        if kind == "rohcfn" and (seen := answer("check", profile)) != ["accepted"]:
            faults.append("check: %s" % seen)
        if kind != "rohcfn" and not answers:
            faults.append("no answer is told")
        wrong += ["the page: %s: %s" % (METHOD.findall(profile)[-1], it) for it in faults]
        counts[kind] += 1
    return wrong, *counts.values()


def parts():
    """What is wrong with the pieces and the profiles that have no headers in data/, and how many there are."""
    wrong, count = [], 0
    for path in sorted(it for it in program.EXAMPLES.glob("profiles/**/*.profile") if it.stem not in {*headers.TOPS, *tuning.TRACES.values()}):
        profile = path.read_text()
        trials = TRIAL.findall(profile)
        faults = [it for it in answer("check", profile) if it != "accepted"]
        faults += packs(profile, trials) if trials else ["no trial"]
        wrong += ["parts: %s: %s" % (path.name, it) for it in faults]
        count += 1
    return wrong, count


def main():
    wrong, whole, out = page()
    faults, pieces = parts()
    for it in wrong + faults:
        print(it)
    print("left out: %d whole profiles of the page, %d that are left out, %d pieces and profiles, %d wrong" % (whole, out, pieces, len(wrong + faults)))
    sys.exit(1 if wrong or faults or not whole or not out else 0)


if __name__ == "__main__":
    main()
