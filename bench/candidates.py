"""What a candidate costs that fails, in instructions, by callgrind, on the built program or on another that is given as an argument: an item of `pack` whose last candidate is the one that has it, or
that none has, over the number of candidates that fail, 65,536 in each profile. Where the header has other bits than the choices tell, a candidate fails by a look, also where the choice goes down
calls as an argument; else it is drawn up and walked. Each profile has a bound."""
import re
import subprocess
import sys

from .measure import PROGRAM, report


# the bits of the choices of each profile together
BITS = 16


def hexed(bits):
    return "%d:%0*x" % (len(bits), 2 * -(-len(bits) // 8), int(bits.ljust(-(-len(bits) // 8) * 8, "0"), 2))


def pick():
    """A header field that is the choice."""
    return "top { UNCOMPRESSED { x [16]; } COMPRESSED { c =:= irregular(16) [16]; x =:= uncompressed_value(16, c.UVALUE); } }", "1" * 16


def sum_of_two():
    """Two choices, of which the header has the sum and then each."""
    return ("top { UNCOMPRESSED { s [9]; x [8]; y [8]; } COMPRESSED { c =:= irregular(8) [8]; d =:= irregular(8) [8]; s =:= uncompressed_value(9, c.UVALUE + d.UVALUE);"
            " x =:= uncompressed_value(8, c.UVALUE); y =:= uncompressed_value(8, d.UVALUE); } }"), format(510, "09b") + "1" * 16


def called():
    """The choice is the argument of a call, whose header is a constant of it."""
    return ("inner(n) { UNCOMPRESSED { x [16]; y [4]; } COMPRESSED { x =:= uncompressed_value(16, n); y =:= irregular(4) [4]; ENFORCE(n <= 65535); } }\n"
            "top { UNCOMPRESSED { z [20]; } COMPRESSED { c =:= irregular(16) [16]; z =:= inner(c.UVALUE); } }"), "1" * 20


def squared():
    """A condition that no look evaluates tells the choice."""
    return ("top { UNCOMPRESSED { x [32]; } COMPRESSED { c =:= irregular(16) [16]; ENFORCE(x.UVALUE == c.UVALUE * c.UVALUE); x =:= uncompressed_value(32, c.UVALUE ^ 2); } }"), format(65535 * 65535, "032b")


def deep():
    """240 fields in 16 calls, one in the other, to which the choice goes as an argument; the last field never has the bits of the header."""
    methods = []
    for depth in range(16, 0, -1):
        name, value = ("inner%d(n)" % depth, "n") if depth > 1 else ("top", "c.UVALUE")
        last = "inner%d(%s);" % (depth + 1, value) if depth < 16 else "uncompressed_value(17, n + 65536);"
        methods.append("%s { UNCOMPRESSED { %s z [%d]; } COMPRESSED { %s %s z =:= %s } }" % (
            name, " ".join("x%d [2];" % it for it in range(15)), 17 + 30 * (16 - depth), "" if depth > 1 else "c =:= irregular(16) [16];",
            " ".join("x%d =:= irregular(2) [2];" % it for it in range(15)), last))
    return "\n".join(methods), "0" * (16 * 30 + 17)


# the most instructions that a candidate may cost
BOUNDS = {pick: 1200, sum_of_two: 25, called: 1700, squared: 10000, deep: 50000}


def of_run(program, profile, items):
    data = ("=== words\npack --top top\n=== profile\n%s\n=== items\n%s" % (profile, "".join(it + "\n" for it in items))).encode()
    words = ["valgrind", "--tool=callgrind", "--callgrind-out-file=/dev/null", program]
    done = subprocess.run(words, input=data, stdout=subprocess.PIPE, stderr=subprocess.PIPE)
    if done.returncode not in (0, 1):
        sys.exit("no answer: " + done.stderr.decode()[-300:])
    return int(re.search(rb"Collected : (\d+)", done.stderr)[1]), done.stdout.decode()


def main():
    program = sys.argv[1] if len(sys.argv) > 1 else PROGRAM
    print("| profile | instructions an item | a candidate | at most | answer |")
    print("|---|---|---|---|---|")
    well = True
    for profile, bound in BOUNDS.items():
        text, bits = profile()
        few, _ = of_run(program, text, [])
        one, answer = of_run(program, text, [hexed(bits)])
        cost = one - few
        well = well and cost <= bound * 2 ** BITS
        print("| %s | %s | %s | %s | %s |" % (profile.__name__, "{:,}".format(cost), "{:,}".format(cost // 2 ** BITS), "{:,}".format(bound), answer.split("\n")[0][:40]), flush=True)
    report("candidates", well)


if __name__ == "__main__":
    main()
