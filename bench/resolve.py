"""Growth of name resolution over the octets of a profile's text, on the built program.

Each text is free of faults and is shown whole: every method is called from the top, and the output must be the one that is due."""
from .measure import grows, MIB, report

SIZES = [MIB // 16, MIB // 8, MIB // 4, MIB // 2, MIB]
METHOD = MIB // 128
CONSTANT = MIB // 1024
FORMAT = MIB // 64


class Profile:
    """A text under way, with the lines that `show` prints for it."""

    def __init__(self):
        self.lines = []
        self.shown = []

    def statements(self, lines):
        """Adds statements, one a line, and gives the places of their constraints: the last bracket, or an ENFORCE's condition."""
        places = []
        for line in lines:
            self.lines.append(line)
            column = line.find("ENFORCE(") + 9 if "ENFORCE(" in line else line.rfind("[") + 1
            if column > 0:
                places.append("%d:%d" % (len(self.lines), column))
        return places

    def method(self, name, header, formats, parameters=""):
        """Adds a method: the statements of its header; for each format the name, the bounds, the statements."""
        self.shown.append("method %s" % name)
        self.lines += [name + parameters, "{", "UNCOMPRESSED {"]
        common = self.statements(header)
        for title, least, most, statements in formats:
            self.lines += ["}", "COMPRESSED %s {" % title]
            self.shown.append("format %s least %d most %d" % (title, least, most))
            self.shown += ["%d %s" % place for place in enumerate(common + self.statements(statements))]
        self.lines += ["}", "}"]

    def top(self, called, bits, arguments=""):
        """Adds the top: for each two methods a format whose local fields they encode, each of so many packed bits."""
        formats = []
        for k in range(0, len(called), 2):
            listed = ["local_%d =:= %s%s;" % (n, name, arguments) for n, name in enumerate(called[k:k + 2])]
            formats.append(("f%d" % k, bits * len(listed), bits * len(listed), listed))
        self.method("top", [], formats)


def methods(size):
    """Up to 127 methods and the top; each has 64 header fields and two formats of brackets."""
    profile = Profile()
    names = ["method_%d" % k for k in range(size // METHOD - 1)]
    for name in names:
        header = ["field_%02d [8];" % k for k in range(64)]
        listed = ["field_%02d =:= irregular(8) [8, 2 * 4, 0x10 - 8, 6 + 2];" % k for k in range(64)]
        profile.method(name, header, [("one", 512, 512, listed), ("two", 512, 512, listed)])
    profile.top(names, 512)
    return profile


def fields(size):
    """Up to 127 methods of a parameter and the top; each has 100 header fields and 16 formats, which list ten of them."""
    profile = Profile()
    names = ["method_%d" % k for k in range(size // METHOD - 1)]
    for name in names:
        header = ["field_%02d [2];" % k for k in range(100)]
        listed = [["field_%02d =:= irregular(width) [2];" % k for k in range(6 * n, 6 * n + 10)] for n in range(16)]
        profile.method(name, header, [("f%d" % n, 20, 20, lines) for n, lines in enumerate(listed)], "(width)")
    profile.top(names, 20, "(2)")
    return profile


def constants(size):
    """Up to 1,016 constants of 114 operators, and for each eight a method whose brackets use those of the whole file by turns."""
    profile = Profile()
    count = size // METHOD - 1
    profile.lines += ["constant_%04d = 8%s;" % (k, " + 12 * 0x1f - 372" * 38) for k in range(8 * count)]
    used = ["constant_%04d" % (k * 101 % (8 * count)) for k in range(96 * count)]
    names = ["method_%d" % k for k in range(count)]
    for k, name in enumerate(names):
        mine = [used[96 * k + 6 * j:96 * k + 6 * j + 6] for j in range(16)]
        header = ["field_%02d [8];" % j for j in range(16)]
        listed = ["field_%02d =:= irregular(8) [%s - %s + %s, %s + %s - %s];" % (j, *six) for j, six in enumerate(mine)]
        profile.method(name, header, [("one", 128, 128, listed)])
    profile.top(names, 128)
    return profile


def chain(size):
    """Up to 1,023 constants, each the one before it and 1 more by 61 operators; the last is used."""
    profile = Profile()
    last = size // CONSTANT - 1
    for k in range(last):
        before = "constant_%04d" % (k - 1) if k > 0 else "0"
        profile.lines.append("constant_%04d = 1 + %s%s;" % (k, before, " + %s - %s" % (before, before) * 30))
    listed = ["x =:= irregular(8) [constant_%04d - %d + 8];" % (last - 1, last)]
    profile.method("top", ["x [8];"], [("one", 8, 8, listed)])
    return profile


def formats(size):
    """One method of up to 64 formats, each with 16 brackets of constants and 16 conditions on its fields, of 78 and 34 operators."""
    profile = Profile()
    names = ["field_%02d" % k for k in range(16)]
    listed = ["%s =:= irregular(8) [8%s];" % (name, " + 12 * 3 - 36" * 26) for name in names]
    whole = "".join(" + %s.UVALUE - %s.CLENGTH" % (name, name) for name in names)
    listed += ["ENFORCE(%s.UVALUE%s < 2^16);" % (name, whole) for name in names]
    header = ["%s [8];" % name for name in names]
    profile.method("top", header, [("f%d" % k, 128, 128, listed) for k in range(size // FORMAT)])
    return profile


def words(size):
    """Up to 127 methods and the top; names have over 220 characters and differ at their ends, and each statement has a comment."""
    profile = Profile()
    long = "a_long_name" * 20
    names = ["%s_%03d" % (long, k) for k in range(size // METHOD - 1)]
    for name in names:
        header = ["%s_%d [8]; // %s" % (long, k, "\u20ac* " * 15) for k in range(8)]
        listed = ["/* %s */ %s_%d =:= irregular(8) [8];" % ("\u20ac* " * 15, long, k) for k in range(8)]
        profile.method(name, header, [("one", 64, 64, listed), ("two", 64, 64, listed)])
    profile.top(names, 64)
    return profile


def case(profile):
    """A row's case: `show` of the text."""
    text = ("\n".join(profile.lines) + "\n").encode()
    due = ("\n".join(profile.shown) + "\n").encode()
    return len(text), b"=== words\nshow --top top\n=== profile\n" + text, 0, due, len(text)


def cases(make):
    return (case(make(size)) for size in SIZES)


def main():
    print("| text | octets | input octets | ms | ns an octet | peak MiB | octets beyond 32 MiB an octet |")
    print("|---|---|---|---|---|---|---|")
    kinds = (methods, fields, constants, chain, formats, words)
    report("resolve", all([grows(make.__name__, cases(make), 300) for make in kinds]))


if __name__ == "__main__":
    main()
