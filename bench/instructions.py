"""What a line of `pack` and `unpack`, and an event or a packet of `line`, costs in instructions, by callgrind, on the built program, or on another that is given as an argument.

A line of `pack` or `unpack` is that of 2,000 lines less that of 500; the lines and the output that is due are those of packing.py. An event of `line` and a packet of `line --receive` are those of
the headers of examples/data/, less those of the first header: by the profiles of UDP and RTP, which have calls in each format. Each of these has a bound."""
import re
import subprocess
import sys

from examples import headers
from .measure import PROGRAM, report
from .packing import bundled, PROFILES, stream

NAMES = ["plain", "tick", "opt", "six", "mode", "turn"]
FEW, MANY = 500, 2000
# the most instructions that an event or a packet of real headers may cost
BOUNDS = {("udp", "line"): 30000, ("udp", "line --receive"): 23000, ("rtp", "line"): 53500, ("rtp", "line --receive"): 32700}


def of_run(program, data, due):
    """The instructions of a run, whose first lines are tested."""
    words = ["valgrind", "--tool=callgrind", "--callgrind-out-file=/dev/null", program]
    done = subprocess.run(words, input=data, stdout=subprocess.PIPE, stderr=subprocess.PIPE)
    if done.returncode or not done.stdout.startswith(due):
        sys.exit("wrong output or status of %s" % data.split(b"\n", 2)[1].decode())
    return int(re.search(rb"Collected : (\d+)", done.stderr)[1])


def counted(program, command, name, count):
    data, due = bundled(command, name, PROFILES[name], list(stream(name, count)))
    return of_run(program, data.replace(b" --top", b" --context --top", 1), due)


def lined(program, kind, own):
    """The instructions of `line` and of `line --receive` over headers, which come back."""
    sent = headers.bundle(kind, "line", "events", headers.events(kind, own)).encode()
    octets, items = subprocess.run([program], input=sent, stdout=subprocess.PIPE).stdout.split(b"\n", 1)
    if [headers.octets_of(it) for it in items.decode().splitlines()] != own:
        sys.exit("other headers come back from line, %s" % kind)
    heard = headers.bundle(kind, "line --receive", "octets", [octets.decode()]).encode()
    return {"line": of_run(program, sent, octets), "line --receive": of_run(program, heard, items)}


def main():
    program = sys.argv[1] if len(sys.argv) > 1 else PROGRAM
    print("| command | %s |" % " | ".join(NAMES))
    print("|---" * (len(NAMES) + 1) + "|")
    for command in ("pack", "unpack"):
        costs = [(counted(program, command, name, MANY) - counted(program, command, name, FEW)) // (MANY - FEW) for name in NAMES]
        print("| %s | %s |" % (command, " | ".join("{:,}".format(round(cost, -2)) for cost in costs)))
    good = True
    print("\n| headers | command | instructions for one | at most |\n|---|---|---|---|")
    for kind in ("udp", "rtp"):
        own = headers.headers_of(kind, (headers.HERE / "data" / (kind + "-headers.hex")).read_text().splitlines())
        few, many = lined(program, kind, own[:1]), lined(program, kind, own)
        for command in few:
            cost, most = (many[command] - few[command]) // (len(own) - 1), BOUNDS[kind, command]
            good = good and cost <= most
            print("| %s | %s | %s | %s |" % (kind, command, "{:,}".format(cost), "{:,}".format(most)))
    report("instructions", good)


if __name__ == "__main__":
    main()
