"""Processor time and memory of the worst texts that are known, on the built program or on another that is given as an argument.

Each text is within the limits. It is run once and has to end with status 0, within its bounds of time and memory. Those that print most go by files, too, through
bin/rohcfn: there the time is that until the call ends. With a folder as the second argument what is printed is kept there, so that two programs
can be compared."""
import itertools
import os
import random
import resource
import subprocess
import sys
import tempfile

from tests.files import Place
from . import measure

TEXT = 1 << 20  # octets of a profile, or of a certificate


def whole(words, profile, certificate=None):
    parts = [("words", words + "\n"), ("profile", profile)] + ([("certificate", certificate)] if certificate else [])
    return "".join("=== %s\n%s" % part for part in parts).encode()


def repeated(operand, operators):
    return "+".join([operand] * (operators + 1))


def formats(count, listed):
    """So many formats, each with a mark of its own before the fields that all of them list."""
    return "".join("  COMPRESSED f%d { mark =:= '%s' [6]; %s }\n" % (it, format(it, "06b"), listed) for it in range(count))


def constants(count):
    return " ".join("h%d =:= uncompressed_value(8, 0) [8];" % it for it in range(count))


def run(data, program):
    """The status of one run, its processor time, its peak memory, and what it printed."""
    with tempfile.TemporaryFile() as source, tempfile.TemporaryFile() as sink:
        source.write(data)
        source.seek(0)
        child = subprocess.Popen([program], stdin=source, stdout=sink)
        _, status, usage = os.wait4(child.pid, 0)
        child.returncode = os.waitstatus_to_exitcode(status)
        sink.seek(0)
        return child.returncode, usage.ru_utime + usage.ru_stime, usage.ru_maxrss * 1024, sink.read()


def stuffed(program, profile, line):
    """The certificate that `prove` makes of the profile, with the line at the end of each plan as often as there is room."""
    status, _, _, printed = run(whole("prove --top t", profile), program)
    if status != 0:
        sys.exit("no certificate: %s" % printed[:80].decode())
    lines = printed.decode().splitlines()
    starts = [it for it, text in enumerate(lines) if text == "read"]
    times = (TEXT - len(printed)) // len(line) // (2 * len(starts))
    out = []
    for it, text in enumerate(lines):
        # a plan ends before the writing one, and before the next format
        if text == "write" or (starts and it > starts[0] and (text.startswith("format ") or text == "end")):
            out += [line[:-1]] * times
        out.append(text)
    return "".join(it + "\n" for it in out)


def waiting(program):
    """120 conditions wait for the end of a chain of 60 fields: all that stands before their last operand is known sooner."""
    tests = ["ENFORCE(s.UVALUE == %s+c59.CVALUE);" % repeated("THIS.ULENGTH", 248)] * 120
    chain = "c0 =:= compressed_value(8, 0);" + "".join(" c%d =:= compressed_value(8, c%d.CVALUE);" % (it, it - 1) for it in range(1, 60))
    last = "last =:= compressed_value(c59.CVALUE, 0);"
    shared = "  UNCOMPRESSED { %s s [8]; %s }\n  CONTROL { %s %s %s }\n" % (constants(64), " ".join(tests[:60]), chain, last, " ".join(tests[60:]))
    return whole("prove --top t", "t {\n%s%s}\n" % (shared, formats(64, "last;" + "".join(" c%d;" % it for it in range(60)))))


def operands(program):
    """Steps by a crc whose four arguments have 255 operators on THIS."""
    size = repeated("THIS.ULENGTH", 255)
    shared = "  UNCOMPRESSED { %s }\n  DEFAULT { c =:= crc(%s, %s, %s, THIS.UVALUE, %s); }\n" % (constants(126), size, size, size, size)
    profile = "t {\n%s%s}\n" % (shared, formats(32, "c;"))
    return whole("check --top t", profile, stuffed(program, profile, "library c down\n"))


def steps(program):
    """Steps by a condition of 250 operands on THIS."""
    shared = "  UNCOMPRESSED { %s h [8]; ENFORCE(h.UVALUE == %s); }\n" % (constants(120), repeated("THIS.ULENGTH", 249))
    profile = "t {\n%s%s}\n" % (shared, formats(40, "c =:= irregular(8);"))
    return whole("check --top t", profile, stuffed(program, profile, "solve h 121\n"))


def encodings(program):
    """Encodings of DEFAULT of 255 operators, which each format of each method uses."""
    default = " ".join("x%d =:= irregular(%s);" % (it, repeated("0", 255)) for it in range(126))
    header = " ".join("x%d;" % it for it in range(126))
    names = "".join("  COMPRESSED f%d { }\n" % it for it in range(64))
    methods = "".join("m%d {\n  UNCOMPRESSED { %s }\n  DEFAULT { %s }\n%s}\n" % (it, header, default, names) for it in range(14))
    calls = " ".join("c%d =:= m%d;" % (it, it) for it in range(14))
    return whole("show --top t", methods + "t { UNCOMPRESSED { } COMPRESSED { %s } }\n" % calls)


def brackets(program):
    """Brackets of DEFAULT of 250 operands on THIS, in 64 formats."""
    default = " ".join("h%d =:= irregular(8) [%s];" % (it, repeated("THIS.ULENGTH", 249)) for it in range(120))
    header = " ".join("h%d [8];" % it for it in range(120))
    profile = "t {\n  UNCOMPRESSED { %s }\n  DEFAULT { %s }\n%s}\n" % (header, default, formats(64, " ".join("h%d;" % it for it in range(120))))
    return whole("prove --top t", profile)


def conditions(program):
    """1,270 calls of a method of 381 conditions of 254 operators. It stays heavy: each condition is judged in each call."""
    test = "ENFORCE(%s==1);" % "*".join(["1"] * 254)
    method = "m {\n  UNCOMPRESSED { %s }\n  CONTROL { %s }\n  COMPRESSED { %s }\n}\n" % ((" ".join([test] * 127),) * 3)
    inner = "n {\n  UNCOMPRESSED { }\n  COMPRESSED { %s }\n}\n" % " ".join("x%d =:= m;" % it for it in range(127))
    profile = method + inner + "t { UNCOMPRESSED { } COMPRESSED { mark =:= '1' [1]; %s } }\n" % " ".join("y%d =:= n;" % it for it in range(10))
    return whole("unpack --top t", profile) + b"=== packets\n1:80\n"


def paths(program):
    """A context of 16,000 paths that differ in their last five octets alone: whatever a look-up goes by, it may take no more than the logarithm of their count."""
    context = "".join("%s%05d 8:01\n" % ("p" * 27, it) for it in range(16000))
    profile = "t {\n  UNCOMPRESSED { x [8]; }\n  COMPRESSED { x =:= irregular(8); }\n}\n"
    return whole("pack --context --top t", profile) + b"=== context\n" + context.encode() + b"=== items\n8:01\n"


MASK, MULTIPLIER, BEGIN = (1 << 64) - 1, 0x9E3779B97F4A7C15, 0x243F6A8885A308D3  # of the kit's hash, which has no seed
LETTERS = "abcdefghijklmnopqrstuvwxyzABCDEFGHIJKLMNOPQRSTUVWXYZ0123456789_"


def folded(a, b):
    """Both halves of a product, joined."""
    product = a * b
    return product & MASK ^ product >> 64


def colliding(count, groups):
    """So many names of seven letters that begin at one of so many groups of a table, and have one tag there: each look-up of one is compared with all before it.
    The hash takes the length and then letter by letter. (Of 2^15 names one serves, so that 1,024 take ten seconds to find.)"""
    found, begins = [], [folded(BEGIN ^ 7, MULTIPLIER ^ 16)]
    for _ in range(6):
        begins = (folded(state ^ ord(it) * 0x10101, MULTIPLIER ^ 2) for state in begins for it in LETTERS[:52])
    for front, state in zip(itertools.product(LETTERS[:52], repeat=6), begins):
        for it in LETTERS:
            product = (state ^ ord(it) * 0x10101) * (MULTIPLIER ^ 2)
            hashed = product & MASK ^ product >> 64
            hashed ^= hashed >> 32
            if not hashed & groups - 1 and hashed >> 24 & 255 == 65:
                found.append("".join(front) + it)
                if len(found) == count:
                    return found


def collisions(program):
    """1,024 constants whose names all fall on one place of the table of names, and 100,000 uses of eight of them."""
    every = colliding(1024, 128)
    value = "+".join(every[-1 - it % 8] for it in range(250))
    fields = ["x%d" % it for it in range(100)]
    method = "m%%d {\n  UNCOMPRESSED { %s }\n  COMPRESSED { %s }\n}\n" % (" ".join("%s =:= irregular(8);" % it for it in fields), " ".join("%s [%s];" % (it, value) for it in fields))
    return whole("show --top t", "".join("%s = 1;\n" % it for it in every) + "".join(method % it for it in range(4)) + "t {\n  UNCOMPRESSED { a [8]; }\n  COMPRESSED { a =:= irregular(8); }\n}\n")


def sites(program):
    """64 methods at one path, each of which waits for an entry that the next one leaves."""
    fields = range(120)
    out = ""
    for it in range(64):
        last = it == 63
        header = " ".join("x%d [8];" % at for at in fields) + " own%d [8];" % it + ("" if last else " own%d [8];" % (it + 1))
        default = " ".join("x%d =:= %s;" % (at, "irregular(8)" if last else "static") for at in fields) + ("" if last else " own%d =:= static;" % (it + 1))
        listed = " ".join("x%d;" % at for at in fields) + " own%d =:= irregular(8);" % it + ("" if last else " own%d;" % (it + 1))
        names = "".join("  COMPRESSED f%d { %s }\n" % (at, listed) for at in range(8))
        out += "m%d {\n  UNCOMPRESSED { %s }\n  DEFAULT { %s }\n%s}\n" % (it, header, default, names)
    calls = "".join("  COMPRESSED f%d { c =:= m%d; }\n" % (it, it) for it in range(64))
    return whole("lint --top t", "%st {\n  UNCOMPRESSED { }\n%s}\n" % (out, calls))


def names(program):
    """7 methods of 64 formats with 120 names of their own, where the last two formats have the same ones."""
    out = ""
    for it in range(7):
        lists = [" ".join("n%dx%d=:='1'[1];" % (min(at, 62), name) for name in range(120)) for at in range(64)]
        out += "m%d {\n  UNCOMPRESSED { }\n%s}\n" % (it, "".join("  COMPRESSED f%d { %s }\n" % pair for pair in enumerate(lists)))
    return whole("lint --top t", out + "t {\n  UNCOMPRESSED { }\n  COMPRESSED { %s }\n}\n" % " ".join("c%d =:= m%d;" % (it, it) for it in range(7)))


def counts(program):
    """100,000 items of no bits, by 64 formats that list 120 fields."""
    empty = " ".join("f%d =:= irregular(0) [0];" % it for it in range(120))
    profile = "t {\n  UNCOMPRESSED { %s }\n%s}\n" % (" ".join("f%d [0];" % it for it in range(120)), formats(64, empty))
    return whole("stats --top t", profile) + b"=== items\n" + b"0:\n" * 100_000


def rows(program):
    """2,000 packets of no bits, each with 1,920 fields in 16 methods, one inside the other: 3,840,000 rows, for which `fields` prints 246 MB."""
    names, out = ["x%d" % it for it in range(119)], ""
    for it in range(16):
        head, last = ("c;", "c =:= m%d;" % (it + 1)) if it < 15 else ("x119 [0];", "x119 =:= irregular(0);")
        header = " ".join("%s [0];" % at for at in names) + " " + head
        listed = " ".join("%s =:= irregular(0);" % at for at in names) + " " + last
        out += "%s {\n  UNCOMPRESSED { %s }\n  COMPRESSED f { %s }\n}\n" % ("m%d" % it if it else "t", header, listed)
    return whole("fields --top t", out) + b"=== packets\n" + b"0:\n" * 2_000


def pairs(program):
    """419,430 items of two fields, which are 4 MiB."""
    draw = random.Random(24)
    profile = "t {\n  UNCOMPRESSED { x [16]; y [8]; }\n  COMPRESSED { x =:= irregular(16); y =:= irregular(8); }\n}\n"
    return whole("fields --items --top t", profile) + b"=== items\n" + b"".join(b"24:%s\n" % draw.randbytes(3).hex().encode() for _ in range(419_430))


def many(program):
    """100,000 items of 24 octets, each a field: more than a bundle, and 101 MB are printed."""
    draw = random.Random(20)
    header, listed = (" ".join(it % at for at in range(24)) for it in ("field%d [8];", "field%d =:= irregular(8);"))
    items = b"".join(b"192:%s\n" % draw.randbytes(24).hex().encode() for _ in range(100_000))
    return whole("fields --items --top t", "t {\n  UNCOMPRESSED { %s }\n  COMPRESSED { %s }\n}\n" % (header, listed)) + b"=== items\n" + items


def trends(program):
    """20,000 items of 64 bits that are drawn, with up to 63 lost: of nearly all 1,280,000 steps each is another one."""
    draw = random.Random(65)
    profile = "t {\n  UNCOMPRESSED { x [64]; }\n  COMPRESSED { x =:= irregular(64); }\n}\n"
    return whole("advise --lost 63 --top t", profile) + b"=== items\n" + b"".join(b"64:%s\n" % draw.randbytes(8).hex().encode() for _ in range(20_000))


def encoded(value):
    """`prove` of 64 formats with 126 encodings of DEFAULT of this value."""
    default = " ".join("h%d =:= uncompressed_value(1, %s);" % (it, value) for it in range(126))
    header = " ".join("h%d;" % it for it in range(126))
    return whole("prove --top t", "t {\n  UNCOMPRESSED { %s }\n  DEFAULT { %s }\n%s}\n" % (header, default, formats(64, "")))


def wholes(program):
    """Values of 250 operands on THIS: each waits for the lengths of all fields, which become known one by one."""
    return encoded(repeated("THIS.ULENGTH", 249))


def others(program):
    """Values of 250 operands that name the fields one after the other: each waits for one after the other."""
    return encoded("+".join("h%d.ULENGTH" % (it % 126) for it in range(250)))


def refused(count, last, comment=""):
    """`why` of an item that is refused in the last of so many methods, of which each has two formats that call the next one."""
    call = "%s {\n  UNCOMPRESSED { x; }\n  DEFAULT { x =:= m%d; }\n  COMPRESSED a { mark =:= '0' [1]; x; }\n  COMPRESSED b { mark =:= '1' [1]; x; }\n}\n"
    text = comment + "".join(call % ("m%d" % it if it else "t", it + 1) for it in range(count - 1))
    return whole("why --items --top t", "%sm%d {\n%s}\n" % (text, count - 1, last)) + b"=== items\n8:07\n"


CONSTANTS = "  UNCOMPRESSED { v [8]; }\n  COMPRESSED a { mark =:= '0' [1]; v =:= uncompressed_value(8, 1); }\n  COMPRESSED b { mark =:= '1' [1]; v =:= uncompressed_value(8, 2); }\n"


def levels(program):
    """16 methods: the formats of the last one are reached in 65,536 ways."""
    return refused(16, CONSTANTS)


def commented(program):
    """12 methods behind a comment of 1 MB: 8,190 lines, each with its line and column in the text."""
    return refused(12, CONSTANTS, "// %s\n" % ("x" * 1_000_000))


def leaves(program):
    """8 methods, the last of which has 60 conditions of 199 operators, of which the last is false."""
    tests = ["ENFORCE(v.UVALUE + %s %s);" % (repeated("1", 198), "> 2" if it < 59 else "== 300") for it in range(60)]
    marks = "".join("  COMPRESSED %s { mark =:= '%d' [1]; v =:= irregular(8); }\n" % (name, it) for it, name in enumerate("ab"))
    return refused(8, "  UNCOMPRESSED { v [8]; %s }\n%s" % (" ".join(tests), marks))


# seconds and MiB at most: some three times what was measured, or a second
BOUNDS = {waiting: (1, 36), operands: (1, 45), steps: (1, 45), encodings: (2, 350), brackets: (3, 730), conditions: (30, 60), paths: (1, 60), collisions: (2, 60), sites: (1, 100), names: (1, 100), counts: (6, 60), rows: (1, 700), trends: (5, 110), wholes: (1, 40), others: (1, 40), levels: (1, 20), commented: (1, 20), leaves: (2, 20)}

# the same of calls of bin/rohcfn with files
FILED = {rows: (1, 100), pairs: (1, 100), many: (1, 100)}


def own():
    """The peak memory of this script. What the system says of a program that it starts is never less."""
    return resource.getrusage(resource.RUSAGE_SELF).ru_maxrss * 1024


def main(words):
    program = words[0] if words else measure.PROGRAM
    if not os.access(program, os.X_OK):
        sys.exit("build the program first: (cd crates/rohcfn && rt run)")
    measure.report("worst", all([texts(program, *words[1:2]), filed(program)]))


def texts(program, folder=None):
    """Runs each text by the program itself; whether all stay within their bounds."""
    good = True
    print("| text | command | input octets | s | peak MiB | bounds |")
    print("|---|---|---|---|---|---|")
    for make, (seconds, room) in BOUNDS.items():
        data = make(program)
        status, took, peak, printed = run(data, program)
        command = data.split(b"\n")[1].split()[0].decode()
        print("| %s | %s | %d | %.2f | %d | %d s, %d MiB |" % (make.__name__, command, len(data), took, peak / measure.MIB, seconds, room), flush=True)
        good = good and status == 0 and took <= seconds and peak <= max(room * measure.MIB, own())
        if folder is not None:
            os.makedirs(folder, exist_ok=True)
            with open(os.path.join(folder, make.__name__), "wb") as out:
                out.write(printed)
    return good


def filed(program):
    """The same of the calls with files."""
    good = True
    print("| text, by files | input octets | MB printed | s | peak MiB | bounds |")
    print("|---|---|---|---|---|---|")
    with tempfile.TemporaryDirectory() as folder:
        place = Place(folder, "copy", program)
        for make, (seconds, room) in FILED.items():
            words, profile, lines = make(program).split(b"=== ")[1:]
            part = lines.split(b"\n")[0].decode()
            place.write("profile", profile.partition(b"\n")[2])
            place.write(part, lines.partition(b"\n")[2])
            with open(place.files / "printed", "wb") as out:
                call = [place.command, "fields", "profile", "--top", "t", "--" + part, part]
                status, took, peak = measure.call(call, cwd=place.files, env=place.environment, stdout=out)
                printed = out.tell() / (measure.CALLS + 1) / 1e6
            print("| %s | %d | %d | %.2f | %d | %d s, %d MiB |" % (make.__name__, len(lines), printed, took, peak / measure.MIB, seconds, room), flush=True)
            good = good and status == 0 and took <= seconds and peak <= room * measure.MIB
    return good


if __name__ == "__main__":
    main(sys.argv[1:])
