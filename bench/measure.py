"""One run of the built program, or of what starts it: its time and its peak memory."""
import contextlib
import os
import pathlib
import re
import resource
import subprocess
import sys
import time

from tests.program import built

PROGRAM = str(built())
# answers rows on calls that no command shows
ROWS = str(built("rows_calls"))
ROUNDS = 15
CALLS = 5
MIB = 1024 * 1024


def run(data, program=PROGRAM):
    """Time and peak memory of one run, in a child of its own."""
    read, write = os.pipe()
    child = os.fork()
    if child == 0:
        start = time.perf_counter()
        done = subprocess.run([program], input=data, stdout=subprocess.PIPE)
        took = time.perf_counter() - start
        peak = resource.getrusage(resource.RUSAGE_CHILDREN).ru_maxrss * 1024
        out = "%d %r %d\n" % (done.returncode, took, peak)
        with os.fdopen(write, "wb") as pipe:
            pipe.write(out.encode())
            pipe.write(done.stdout)
        os._exit(0)
    os.close(write)
    with os.fdopen(read, "rb") as pipe:
        status, took, peak = pipe.readline().split()
        output = pipe.read()
    os.waitpid(child, 0)
    return int(status), float(took), int(peak), output


def below(process):
    """A process, and those that are started below it."""
    found = [process]
    for it in found:
        with contextlib.suppress(OSError):
            for task in pathlib.Path("/proc/%d/task" % it).iterdir():
                found += map(int, (task / "children").read_text().split())
    return found


def held(processes):
    """The octets of memory that processes hold together. What several of them hold counts once, and so does a file in memory."""
    octets, files = 0, {}
    for it in processes:
        with contextlib.suppress(OSError):
            place = pathlib.Path("/proc/%d" % it)
            octets += 1024 * sum(map(int, re.findall(r"^Pss_(?:Anon|File): +(\d+) kB$", (place / "smaps_rollup").read_text(), re.MULTILINE)))
            for stream in (place / "fd").iterdir():
                if os.readlink(stream).startswith("/memfd:"):
                    files[stream.stat().st_ino] = 512 * stream.stat().st_blocks
    return octets + sum(files.values())


def call(words, **how):
    """The status of a call, the seconds until it ends, the least of some runs, and its peak memory, with that of what it starts, which is looked at in one more run."""
    times = []
    for _ in range(CALLS):
        start = time.perf_counter()
        status = subprocess.run(words, **how).returncode
        times.append(time.perf_counter() - start)
    peak = 0
    with subprocess.Popen(words, **how) as running:
        while running.poll() is None:
            peak = max(peak, held(below(running.pid)))
            time.sleep(0.002)
    return status or running.returncode, min(times), peak


def best_of(data, status, output, program=PROGRAM):
    """The least time and the greatest peak of some runs, each of which must end and print as said."""
    if not os.access(program, os.X_OK):
        sys.exit("build the program first: (cd crates/%s && rt run)" % os.path.basename(program))
    best, most = None, 0
    for _ in range(ROUNDS):
        found, took, peak, printed = run(data, program)
        if found != status or printed != output:
            sys.exit("wrong output or status %d" % found)
        best = took if best is None else min(best, took)
        most = max(most, peak)
    return best, most


def grows(name, cases, most_beyond):
    """A row for each case (its count, its input, the status and output that are due, and the octets that its memory goes by), and
    whether one at the largest takes at most 1.25 times one at a quarter of it, and the memory beyond 32 MiB stays in bounds."""
    good = True
    per_unit = []
    for count, data, status, output, units in cases:
        best, most = best_of(data, status, output)
        per_unit.append(best / count)
        beyond = max(0, most - 32 * MIB) / units
        good = good and beyond <= most_beyond
        print("| %s | %d | %d | %.1f | %.1f | %.1f | %.1f |" % (name, count, len(data), best * 1e3, per_unit[-1] * 1e9, most / MIB, beyond))
    ratio = per_unit[-1] / per_unit[-3]
    print("| %s | | | | one at the largest, over one at a quarter of it: %.2f | | |" % (name, ratio))
    return good and ratio <= 1.25


def report(title, good):
    print("%s: 1 passed, 0 failed" % title if good else "%s: 0 passed, 1 failed" % title)
    sys.exit(0 if good else 1)
