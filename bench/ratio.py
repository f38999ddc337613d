"""usage: bench/ratio.py OTHER [OTHER ..]

`pack` and `unpack` of 60,000 lines of the plain profile, and `line` and `line --receive` of 60,000 events of 16 flows, by the built program and by other programs that
read the same bundles, in turn, so that all of them meet the same machine. Prints for each of them the median of the ratios of the times, its own over the other's."""
import os
import statistics
import sys

from . import growth, line
from .measure import MIB, PROGRAM, ROUNDS, run

LINES = 60000


def timed(program, data, expected):
    status, took, peak, printed = run(data, program)
    if status != 0 or printed != expected:
        sys.exit("%s: wrong output or status %d" % (program, status))
    return took, peak


def compare(script, command, others):
    data, expected = script.bundle(command, LINES), script.expected(command, LINES)
    own, times = [], {other: [] for other in others}
    for _ in range(ROUNDS):
        own.append(timed(PROGRAM, data, expected))
        for other in others:
            times[other].append(timed(other, data, expected))
    for i, other in enumerate(others):
        ratio = statistics.median(mine[0] / theirs[0] for mine, theirs in zip(own, times[other]))
        mine, theirs = min(own)[0] * 1e3, min(times[other])[0] * 1e3
        peaks = max(peak for _, peak in own) / MIB, max(peak for _, peak in times[other]) / MIB
        print("| %s | %d | %.1f | %.1f | %.2f | %.1f | %.1f |" % (command, i + 1, mine, theirs, ratio, *peaks))


def main(others):
    if not others or not all(os.access(other, os.X_OK) for other in others):
        sys.exit(__doc__)
    print("| command | other | ms | ms of the other | ratio | peak MiB | peak MiB of the other |")
    print("|---|---|---|---|---|---|---|")
    for script, command in [(growth, "pack"), (growth, "unpack"), (line, "line"), (line, "line --receive")]:
        compare(script, command, others)


main(sys.argv[1:])
