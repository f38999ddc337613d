"""Growth of `pack` and `unpack` over the fields of a header, on the built program.

Each filling is judged by `holds`, which visits each field a bounded number of times. A header has up to 128 fields of one octet, as many as a section may have."""
from .measure import grows, report

FIELDS = [8, 16, 32, 64, 128]
LINES = 2000


def profile(count):
    header = "".join("f%d [8]; " % i for i in range(count))
    listed = "".join("f%d =:= irregular(8) [8]; " % i for i in range(count))
    return "many { UNCOMPRESSED { %s} COMPRESSED { %s} }\n" % (header, listed)


def header(count, line):
    octets = bytes((line * 7 + i * 31) % 256 for i in range(count))
    return "%d:%s" % (8 * count, octets.hex())


def cases(command):
    for count in FIELDS:
        headers = [header(count, line) for line in range(LINES)]
        part = "items" if command == "pack" else "packets"
        ends = "\n" if command == "pack" else " took %d\n" % (8 * count)
        data = "=== words\n%s --top many\n=== profile\n%s=== %s\n%s" % (command, profile(count), part, "".join(it + "\n" for it in headers))
        yield count, data.encode(), 0, "".join(it + ends for it in headers).encode(), len(data)


def main():
    print("| command | fields | input octets | ms | ns a field | peak MiB | octets beyond 32 MiB an octet |")
    print("|---|---|---|---|---|---|---|")
    report("fields", all([grows(command, cases(command), 64) for command in ("pack", "unpack")]))


main()
