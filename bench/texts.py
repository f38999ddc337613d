"""Growth of reading a profile's text over its octets, on the built program.

Each text is lexed and parsed whole, and then answered with the first fault of its names."""
from .measure import grows, MIB, report

SIZES = [MIB // 16, MIB // 8, MIB // 4, MIB // 2, MIB]
ANSWERS = {
    "methods": b"profile:1:1: E29 method method_0 lacks one UNCOMPRESSED or named formats\n",
    "expressions": b"profile:2:1: E21 name K is defined twice\n",
    "comments": b"profile:1:1: E27 no such top method without parameters\n",
}


def methods(size):
    """100 methods, whose formats have at most 100 statements each, as many as fit."""
    statement = "field_name =:= irregular(12) [12]; // a comment\n"
    left = (size // 100 - 40) // (len(statement) + 1)
    formats = []
    while left > 0:
        count = min(left, 100)
        formats.append("COMPRESSED f%d {\n%s}\n" % (len(formats), statement * count))
        left -= count
    return "".join("method_%d\n{\n%s}\n" % (i, "".join(formats)) for i in range(100))


def expressions(size):
    """Constants, each a nested expression of 200 operators."""
    line = "K = " + "(" * 60 + "1" + " + 1)" * 60 + " - 12 * 0x1f" * 70 + ";\n"
    return line * (size // len(line))


def comments(size):
    """One comment to the end of the text."""
    return "/* " + "\u20ac*" * ((size - 8) // 4) + " */\n"


def cases(make):
    for size in SIZES:
        text = make(size).encode()[:size]
        data = b"=== words\npack --top none\n=== profile\n" + text + b"=== items\n"
        yield len(text), data, 1, ANSWERS[make.__name__], len(text)


def main():
    print("| text | octets | input octets | ms | ns an octet | peak MiB | octets beyond 32 MiB an octet |")
    print("|---|---|---|---|---|---|---|")
    report("texts", all([grows(make.__name__, cases(make), 100) for make in (methods, expressions, comments)]))


main()
