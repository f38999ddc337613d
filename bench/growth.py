"""Growth of `pack` and `unpack` over the lines of the plain profile, on the built program."""
from .measure import grows, report

PROFILE = """plain
{
  UNCOMPRESSED { a [4]; b [12]; }
  COMPRESSED {
    d =:= '10' [2];
    a =:= irregular(4) [4];
    b =:= irregular(12) [12];
  }
}
"""
SIZES = [2000, 4000, 8000, 16000, 32000, 64000]


def header(i):
    return (i * 40503 + 7) % 65536


def bundle(command, count):
    lines = []
    for i in range(count):
        h = header(i)
        if command == "pack":
            lines.append("16:%04x\n" % h)
        else:
            lines.append("18:%06x\n" % (((0b10 << 16) | h) << 6))
    part = "items" if command == "pack" else "packets"
    return ("=== words\n%s --top plain\n=== profile\n%s=== %s\n" % (command, PROFILE, part) + "".join(lines)).encode()


def expected(command, count):
    if command == "pack":
        return "".join("18:%06x\n" % (((0b10 << 16) | header(i)) << 6) for i in range(count)).encode()
    return "".join("16:%04x took 18\n" % header(i) for i in range(count)).encode()


def cases(command):
    for count in SIZES:
        data = bundle(command, count)
        yield count, data, 0, expected(command, count), len(data)


def main():
    print("| command | lines | input octets | ms | ns a line | peak MiB | octets beyond 32 MiB an octet |")
    print("|---|---|---|---|---|---|---|")
    report("growth", all([grows(command, cases(command), 64) for command in ("pack", "unpack")]))


if __name__ == "__main__":
    main()
