"""What a header costs that is packed or unpacked through the library, in instructions, by callgrind, beside an event of `line` and a packet of `line --receive` on the built program.

The headers are those of the longest flow of each kind in examples/data/, in one flow of a session, by clients/c/rounds.c. A header is that of five rounds less that of one. It also prints how much
of the stack a program takes that opens a session and packs and unpacks. A header that is packed may cost no more than an event of `line`, and one that is unpacked a hundredth more than a
packet of `line --receive`."""
import pathlib
import re
import resource
import subprocess
import sys
import tempfile

from examples import headers
from tests.library import build
from .instructions import lined
from .measure import PROGRAM, report

FEW, MANY = 1, 5
STEPS = {"pack": "line", "unpack": "line --receive"}
# how often the cost by `line` a header may cost
MOST = {"pack": 1.0, "unpack": 1.01}
SMALLEST = 16


def longest(kind):
    """The headers of the flow that has most of them."""
    lines = (headers.HERE / "data" / (kind + "-headers.hex")).read_text().splitlines()
    return max(headers.by_flow(headers.headers_of(kind, lines)).values(), key=len)


def words_of(folder, kind, flow):
    """The words that run the rounds over a flow."""
    items = folder / (kind + ".items")
    items.write_text("\n".join(headers.items(kind, flow)) + "\n")
    return [folder / "rounds", headers.TOPS[kind], headers.HERE / "profiles" / (kind + ".profile"), items]


def of_rounds(words, rounds, step):
    """The instructions of so many rounds."""
    run = ["valgrind", "--tool=callgrind", "--callgrind-out-file=/dev/null", *words, str(rounds), step]
    done = subprocess.run(run, stdout=subprocess.PIPE, stderr=subprocess.PIPE, check=False)
    if done.returncode:
        sys.exit("rounds: status %d" % done.returncode)
    return int(re.search(rb"Collected : (\d+)", done.stderr)[1])


def runs_in(words, size):
    """Whether a program runs with so many KiB of stack."""

    def narrow():
        resource.setrlimit(resource.RLIMIT_STACK, (size << 10, size << 10))

    done = subprocess.run([*words, "1", "pack"], stdout=subprocess.DEVNULL, stderr=subprocess.DEVNULL, preexec_fn=narrow, check=False)
    return done.returncode == 0


def stack(words):
    """The least power of two of KiB of stack in which a program opens, packs and unpacks. The loader itself wants some of it."""
    size = SMALLEST
    while not runs_in(words, size) and size < 1 << 16:
        size *= 2
    return size


def main():
    program, good = (sys.argv[1] if len(sys.argv) > 1 else PROGRAM), True
    with tempfile.TemporaryDirectory() as name:
        folder = pathlib.Path(name)
        if not build(folder):
            sys.exit(1)
        print("| headers | step | through the library | the same by `line` | KiB of stack |\n|---|---|---|---|---|")
        for kind in headers.TOPS:
            flow = longest(kind)
            words = words_of(folder, kind, flow)
            one, all_ = lined(program, kind, flow[:1]), lined(program, kind, flow)
            for step, by_line in STEPS.items():
                cost = (of_rounds(words, MANY, step) - of_rounds(words, FEW, step)) // ((MANY - FEW) * len(flow))
                line = (all_[by_line] - one[by_line]) // (len(flow) - 1)
                good = good and cost <= MOST[step] * line
                print("| %s | %s | %s | %s | %d |" % (kind, step, "{:,}".format(cost), "{:,}".format(line), stack(words)))
    report("library", good)


if __name__ == "__main__":
    main()
