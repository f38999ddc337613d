"""Growth of `prove` over the fields of a format, the formats of a method and the methods of a profile, on the built program; and how long it takes to find that a tree is above the limit.

What is printed is compared with the certificate of the second prover (tests/reference/proving.py). From a quarter of the largest size to the largest the time may grow by that ratio to the
power of 2.2 for fields and formats, and of 1.25 for methods."""
import math

from tests.reference import built, proving
from tests.reference.reading import Field, Format, Method
from .measure import best_of, report

SECONDS = 10


def bits(number, count):
    return format(number, "0%db" % count)


def coded(count, width, mark):
    """A format's text and its normal form: a mark of its own, and fields of one octet, sent as they are or added to the one before, which a condition tells."""
    name, literal = "f%d" % mark, bits(mark, width)
    text, fields, listing, constraints = "COMPRESSED %s { d =:= '%s'; " % (name, literal), [], ["d"], []
    for i in range(count):
        given = i % 4 == 3
        encoding = ("uncompressed_value", 8, ("+", ("x%d" % (i - 1), "UVALUE"), 1)) if given else ("irregular", 8)
        text += "x%d =:= %s; " % (i, "uncompressed_value(8, x%d.UVALUE + 1)" % (i - 1) if given else "irregular(8)")
        fields.append(Field("x%d" % i, "header", encoding, (8, 8), (0, 0) if given else (8, 8)))
        listing.append("x%d" % i)
    fields.append(Field("d", "local", ("compressed_value", width, mark), (0, 0), (width, width)))
    return text + "}\n", Format(name, fields, listing, constraints)


def method(name, formats, fields):
    width = max(1, (formats - 1).bit_length())
    text, forms = "%s { UNCOMPRESSED { %s}\n" % (name, "".join("x%d; " % i for i in range(fields))), []
    for mark in range(formats):
        more, form = coded(fields, width, mark)
        text, forms = text + more, forms + [form]
    return text + "}\n", Method(name, [], forms), width + sum(8 for i in range(fields) if i % 4 != 3)


def whole(methods, formats, fields):
    """A top that calls so many methods, two in each of its formats, or one method alone."""
    if methods == 1:
        text, only, _ = method("top", formats, fields)
        return text, [only]
    inner = [method("m%d" % k, formats, fields) for k in range(methods)]
    width = max(1, (methods // 2 - 1).bit_length())
    text, forms = "top { UNCOMPRESSED { a; b; }\n", []
    for mark in range(methods // 2):
        text += "COMPRESSED t%d { d =:= '%s'; a =:= m%d; b =:= m%d; }\n" % (mark, bits(mark, width), 2 * mark, 2 * mark + 1)
        called = [Field(name, "header", ("call", "m%d" % (2 * mark + place), []), (8 * fields, 8 * fields), (inner[0][2], inner[0][2])) for place, name in enumerate("ab")]
        forms.append(Format("t%d" % mark, called + [Field("d", "local", ("compressed_value", width, mark), (0, 0), (width, width))], ["d", "a", "b"], []))
    return text + "}\n" + "".join(it[0] for it in inner), [Method("top", [], forms)] + [it[1] for it in inner]


def grows(name, sizes, most):
    times = []
    for size in sizes:
        text, methods = whole(*size)
        printed, status = proving.answer(methods)
        data = ("=== words\nprove --top top\n=== profile\n" + text).encode()
        best, peak = best_of(data, status, printed.encode())
        times.append(best)
        print("| %s | %s | %d | %.1f | %.1f |" % (name, " ".join(map(str, size)), len(data), best * 1e3, peak / (1 << 20)), flush=True)
    exponent = math.log(times[-1] / times[0]) / math.log(4)
    print("| %s | exponent %.2f | | | |" % (name, exponent), flush=True)
    return exponent <= most


def main():
    print("| grown | methods, formats, fields | input octets | ms | peak MiB |")
    print("|---|---|---|---|---|")
    good = grows("fields", [(1, 1, 31), (1, 1, 63), (1, 1, 127)], 2.2)
    good = grows("formats", [(1, 16, 16), (1, 32, 16), (1, 64, 16)], 2.2) and good
    good = grows("methods", [(30, 4, 6), (60, 4, 6), (120, 4, 6)], 1.25) and good
    for what, data, status, printed in built.crowded():
        best, peak = best_of(data, status, printed)
        print("| %s | | %d | %.1f | %.1f |" % (what, len(data), best * 1e3, peak / (1 << 20)))
        good = best <= SECONDS and good
    report("prove", good)


main()
