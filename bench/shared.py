"""Memory of a method's formats where UNCOMPRESSED says most, on the built program.

Each text is one method of 64 formats over one long UNCOMPRESSED, whose statements each format has. It is free of faults and is shown whole. What UNCOMPRESSED
says is kept once, so the memory is that of the text and not of 64 copies of it."""
from .measure import grows, MIB, report
from .resolve import case, Profile, SIZES

FORMATS = 64
STATEMENT = MIB // 124
ZERO = " + 12 * 3 - 36"


def brackets(count):
    """Fields with a bracket of 29 constants of 54 operators."""
    lengths = ", ".join(["8" + ZERO * 18] * 29)
    return ["field_%03d =:= uncompressed_value(8, 0) [%s];" % (k, lengths) for k in range(count)]


def encodings(count):
    """Fields whose encodings have two arguments of 240 operators, and a bracket."""
    zeros = ZERO * 80
    return ["field_%03d =:= uncompressed_value(8%s, 0%s) [%s];" % (k, zeros, zeros, ", ".join(["8" + ZERO * 18] * 21)) for k in range(count)]


def conditions(count):
    """Four fields, and conditions of 225 operators on them."""
    names = ["a_field_with_a_long_name_%d" % k for k in range(4)]
    zeros = "".join(" + %s.UVALUE - %s.CLENGTH" % (name, name) for name in names) * 28
    fields = ["%s =:= uncompressed_value(8, 0) [8];" % name for name in names]
    return fields + ["ENFORCE(%s.UVALUE%s < 2^16);" % (names[0], zeros) for _ in range(count - 4)]


def cases(make):
    for size in SIZES:
        profile = Profile()
        formats = [("f%d" % k, 0, 0, []) for k in range(FORMATS)]
        profile.method("top", make(size // STATEMENT), formats)
        yield case(profile)


def main():
    print("| text | octets | input octets | ms | ns an octet | peak MiB | octets beyond 32 MiB an octet |")
    print("|---|---|---|---|---|---|---|")
    report("shared", all([grows(make.__name__, cases(make), 64) for make in (brackets, encodings, conditions)]))


if __name__ == "__main__":
    main()
