#!/usr/bin/env python3
"""Writes the files of the walks of docs/TUNING.md into a folder: each version of each profile, and the traces.

    tuning.py FOLDER

The first version of a profile is tuning/NAME-1.profile. Each later one is the version before it with the changes of tuning/NAME-N.diff, and the last one is
profiles/NAME.profile."""
import itertools
import pathlib
import re
import sys

HERE = pathlib.Path(__file__).resolve().parent
TRACES = {"tcp-client": "tcp", "tcp-server": "tcp", "coap": "coap", "mqttsn": "mqttsn", "sixlowpan": "sixlowpan"}  # the profile of each file of items in data/
HUNK = re.compile(r"@@ -(\d+)(?:,\d+)? \+\d+(?:,\d+)? @@")


def changed(lines, diff):
    """The lines with the changes of a unified diff, which has the lines around each change as they stand."""
    done, place = [], 0
    for line in diff[2:]:
        hunk = HUNK.fullmatch(line)
        if hunk:
            start = int(hunk[1]) - 1
            done, place = done + lines[place:start], start
            continue
        if line[0] in " -":
            if lines[place] != line[1:]:
                raise ValueError("line %d is another than %r" % (place + 1, line))
            place += 1
        if line[0] in " +":
            done.append(line[1:])
    return done + lines[place:]


def diff_of(name, number):
    """The lines of the changes that lead to a version of a profile, where there is one."""
    path = HERE / "tuning" / ("%s-%d.diff" % (name, number))
    return path.read_text().splitlines() if path.exists() else None


def versions(name):
    """The texts of a profile, from the first version to the last."""
    lines = (HERE / "tuning" / (name + "-1.profile")).read_text().splitlines()
    texts = [lines]
    for number in itertools.count(2):
        diff = diff_of(name, number)
        if diff is None:
            return ["\n".join(it) + "\n" for it in texts]
        lines = changed(lines, diff)
        texts.append(lines)


def files():
    """The name and the text of each file."""
    for name in dict.fromkeys(TRACES.values()):
        for number, text in enumerate(versions(name), 1):
            yield "%s-%d.profile" % (name, number), text
    for name in TRACES:
        yield name + ".items", (HERE / "data" / (name + ".items")).read_text()


def main(words):
    if len(words) != 1 or not pathlib.Path(words[0]).is_dir():
        sys.exit(__doc__)
    for name, text in files():
        (pathlib.Path(words[0]) / name).write_text(text)


if __name__ == "__main__":
    main(sys.argv[1:])
