"""Runs the cases of examples/cases/ and of built.py through the built program, and compares what it prints and its status.

A file of cases holds, for each, a line `=== case NAME`, a bundle, a line `=== answer STATUS` and what the program prints. With the word `cut`
after the status the bundle's last line feed is left out. The values follow from docs/NOTATION.md, docs/FORMATS.md and docs/DECISIONS.md; none
is taken from the program."""
import concurrent.futures
import sys

from .program import EXAMPLES, run
from .reference import built



def stored(path):
    """Name, bundle, status and output of each case of a file."""
    for block in (b"\n" + path.read_bytes()).split(b"\n=== case ")[1:]:
        name, rest = block.split(b"\n", 1)
        bundle, rest = (b"\n" + rest).split(b"\n=== answer ", 1)
        head, _, output = rest.partition(b"\n")
        status, *cut = head.split(b" ")
        bundle = bundle[1:] if cut == [b"cut"] else bundle[1:] + b"\n"
        lines = output.rstrip(b"\n")
        yield name.decode(), bundle, int(status), lines + b"\n" if lines else b""


def cases():
    """All cases: the stored ones, then those that are built by repetition."""
    for path in sorted(EXAMPLES.glob("cases/*.cases")):
        for name, bundle, status, output in stored(path):
            yield "%s: %s" % (path.name, name), bundle, status, output
    for name, bundle, status, output in built.cases():
        yield "built: %s" % name, bundle, status, output


def passes(case):
    """Whether the program answers the bundle so."""
    _, bundle, status, output = case
    return run(bundle) == (output.decode(), status)


def main():
    every = list(cases())
    with concurrent.futures.ThreadPoolExecutor(max_workers=4) as pool:
        wrong = [name for (name, *_), is_right in zip(every, pool.map(passes, every)) if not is_right]
    for name in wrong:
        print("%s: output or status differs" % name)
    print("cases: %d passed, %d failed" % (len(every) - len(wrong), len(wrong)))
    return 1 if wrong or not every else 0


if __name__ == "__main__":
    sys.exit(main())
