"""What a header costs in instructions where its packet survives N losses in a row, over what it costs with `pack`, by callgrind, on the built program or on another that is given as an argument. Each
flow of the headers of examples/data/ goes by itself, less its first header. What is packed has to be what `unpack` reads back."""
import concurrent.futures
import sys

from examples import headers
from .instructions import of_run
from .measure import PROGRAM, report, run

NUMBERS = (0, 1, 3, 8, 15)
# the most instructions of a udp header: with N = 0 and 15 over those of `pack`, else as they are (bench/README.md says why)
RATIO, MOST = {0: 1.1, 15: 4.0}, {3: 121000}


def flows(kind):
    lines = (headers.HERE / "data" / (kind + "-headers.hex")).read_text().splitlines()
    every = [list(headers.items(kind, it)) for it in headers.by_flow(headers.headers_of(kind, lines)).values()]
    return [it for it in every if len(it) > 1]


def packed(program, kind, words, items):
    """The bundle, and what is printed, which is read back as the items."""
    data = headers.bundle(kind, words, "items", items).encode()
    status, _, _, printed = run(data, program)
    lines = printed.decode().splitlines()
    _, _, _, read = run(headers.bundle(kind, "unpack", "packets", lines).encode(), program)
    if status or [it.rpartition(" took ")[0] for it in read.decode().splitlines()] != items:
        sys.exit("other headers come back: %s %s" % (kind, words))
    return data, printed


def cost(program, kind, words):
    """The instructions of a header."""
    many = [packed(program, kind, words, it) for it in flows(kind)]
    few = [packed(program, kind, words, it[:1]) for it in flows(kind)]
    with concurrent.futures.ThreadPoolExecutor(max_workers=2) as pool:
        counts = list(pool.map(lambda it: of_run(program, *it), many + few))
    return (sum(counts[:len(many)]) - sum(counts[len(many):])) / sum(len(it) - 1 for it in flows(kind))


def main():
    program = sys.argv[1] if len(sys.argv) > 1 else PROGRAM
    print("| headers | N | instructions for one | over `pack` | at most |\n|---|---|---|---|---|")
    good = True
    for kind in headers.TOPS:
        plain = cost(program, kind, "pack")
        print("| %s | `pack` | %s | | |" % (kind, "{:,}".format(round(plain))))
        for lost in NUMBERS:
            own = cost(program, kind, "pack --robust %d" % lost)
            most = None if kind != "udp" else plain * RATIO[lost] if lost in RATIO else MOST.get(lost)
            good = good and (most is None or own <= most)
            print("| %s | %d | %s | %.2f | %s |" % (kind, lost, "{:,}".format(round(own)), own / plain, "" if most is None else "{:,}".format(round(most))))
    report("robust", good)


if __name__ == "__main__":
    main()
