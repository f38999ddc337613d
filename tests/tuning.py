"""Whether docs/TUNING.md shows just what the built program prints of each call, the changes that lead from version to version, each warning that `lint`
has of a last version, and the table of all walks; whether each version is accepted, and the last one is that of profiles/; whether each header of the traces
comes back as it was; and whether the made traces are those that traces.py makes.

Where the page leaves lines out a line `..` stands. All words, files and versions are those of examples/tuning.py; only the traces are compared with what the
program is to give back, and what it prints with the page."""
import functools
import re
import shlex
import sys

from examples import traces, tuning
from . import program
from .left_out import METHOD

PAGE = (program.DOCS / "TUNING.md").read_text()
FILES = dict(tuning.files())
LEFT_OUT = ".."
BLOCK = re.compile(r"^```(sh|diff)\n(.*?)^```$", re.DOTALL | re.MULTILINE)
TOTAL = re.compile(r"items (\d+) bits (\d+) mean (\S+)")


def filtered(lines, words):
    """The lines that `head -n COUNT`, `tail -n COUNT`, `grep PATTERN` or `grep -v PATTERN` leaves of these."""
    command, *rest = shlex.split(words)
    if command == "head":
        return lines[:int(rest[1])]
    if command == "tail":
        return lines[-int(rest[1]):]
    pattern = re.compile(rest[-1].replace("\\|", "|"))
    return [it for it in lines if bool(pattern.search(it)) == (rest[0] != "-v")]


@functools.cache
def answer(words):
    """The lines that the program prints for the words of a call with files, less those that a command behind a bar takes out."""
    before, bar, after = words.rpartition(" | ")
    if bar:
        return filtered(answer(before), after)
    command, profile, *rest = shlex.split(words)
    items = None
    if "--items" in rest:
        at = rest.index("--items")
        items = FILES[rest[at + 1]]
        rest[at:at + 2] = ["--items"] if command in ("fields", "why") else []
    text = FILES[profile]
    return program.lines(program.bundle(" ".join([command, "--top", METHOD.findall(text)[-1], *rest]), text, items=items))[0]


def shows(shown, whole):
    """Whether the lines that are shown are all there are, in their order, but for those in whose place a line `..` stands."""
    place, free = 0, False
    for part in [list(it) for it in parted(shown)]:
        ends = [it for it in range(place, len(whole) - len(part) + 1) if whole[it:it + len(part)] == part and (free or it == place)]
        if not ends:
            return False
        place, free = ends[0] + len(part), True
    return place == len(whole) or shown[-1:] == [LEFT_OUT]


def parted(shown):
    """The parts between the lines `..`."""
    part = []
    for line in shown:
        if line == LEFT_OUT:
            yield part
            part = []
        else:
            part.append(line)
    yield part


def shown_wrong():
    """What the page shows otherwise, one by one, with None for what it shows right."""
    for kind, block in BLOCK.findall(PAGE):
        if kind == "diff":
            old, new, *shown = block.splitlines()
            name, number = re.fullmatch(r"\+\+\+ (\w+)-(\d)\.profile", new).groups()
            diff = [it for it in tuning.diff_of(name, int(number)) if not it.startswith("@@")]
            yield None if diff[:2] == [old, new] and shows(shown, diff[2:]) else "the changes to %s-%s" % (name, number)
            continue
        for call in block.removeprefix("$ ").split("\n$ "):
            words, *shown = call.splitlines()
            whole = answer(words.removeprefix("bin/rohcfn "))
            yield None if shows(shown, whole) else "%s: %s" % (words, "\n".join(whole))


def versions_wrong():
    """What is wrong with the versions."""
    for name in dict.fromkeys(tuning.TRACES.values()):
        texts = tuning.versions(name)
        for number in range(1, len(texts) + 1):
            yield None if answer("check %s-%d.profile" % (name, number)) == ["accepted"] else "%s-%d is not accepted" % (name, number)
        yield None if texts[-1] == (program.EXAMPLES / "profiles" / (name + ".profile")).read_text() else "%s: the last version is not that of profiles/" % name
        for line in answer("lint %s-%d.profile" % (name, len(texts))):
            yield None if line in PAGE.splitlines() else "the page lacks a warning of %s: %s" % (name, line)


def traces_wrong():
    """What is wrong with the traces."""
    for name, profile in tuning.TRACES.items():
        lines = FILES[name + ".items"].splitlines()
        last = "%s-%d.profile" % (profile, len(tuning.versions(profile)))
        packets = answer("pack %s --items %s.items" % (last, name))
        back = program.lines(program.bundle("unpack --top %s" % METHOD.findall(FILES[last])[-1], FILES[last], packets="\n".join(packets) + "\n"))[0]
        due = ["%s took %s" % (it, packet.split(":")[0]) for it, packet in zip(lines, packets)]
        yield None if back == due and len(due) == len(lines) else "%s: not read back" % name
        if name in traces.TRACES:
            yield None if lines == traces.items(name) else "%s: traces.py makes another trace" % name


def row(name, profile):
    """The row of the table for a trace."""
    first, last = ("%s-%d.profile --items %s.items" % (profile, it, name) for it in (1, len(tuning.versions(profile))))
    lines = FILES[name + ".items"].splitlines()
    bits = sum(int(it.split(":")[0]) for it in lines) / len(lines)
    means = [TOTAL.match(answer("stats %s" % it)[0])[3] for it in (first, last)]
    losses = {it.split()[0]: ", ".join(it.split()[3:]) for it in answer("loss %s" % last)[2:11]}
    robust = TOTAL.match(answer("stats %s --robust 3" % last)[0])
    robust = robust[3] if int(robust[1]) == len(lines) else "F5"
    return "| %s | %d | %.1f | %s | %s | %s | %s | %s |" % (name, len(lines), bits, *means, losses["1"], losses["8"], robust)


def main():
    rows = [row(*it) for it in tuning.TRACES.items()]
    lacking = [None if it in PAGE.splitlines() else "the page lacks the row %s" % it for it in rows]
    parts = [list(shown_wrong()), list(versions_wrong()), list(traces_wrong()), lacking]
    wrong = [it for part in parts for it in part if it]
    for it in wrong:
        print(it)
    print("tuning: %d calls and changes, %d of versions, %d of traces, %d rows, %d wrong" % (*map(len, parts), len(wrong)))
    sys.exit(1 if wrong or not all(parts) else 0)


if __name__ == "__main__":
    main()
