"""Growth of `check` over the methods, formats and fields of a profile and the steps of its certificate, on the built program.

The top has a format for each two of the other methods, which it calls; each of these has formats that begin with bits of their own, and fields of one octet."""
from .measure import grows, report


def bits(number, count):
    return format(number, "0%db" % count)


def tree(low, high, place, count, names):
    """The nodes for the formats from low to high, whose numbers are alike before the bit at the place."""
    if low >= high:
        return ["none"]
    if place == count:
        return ["leaf %s" % names[low]]
    middle = max(low, min(high, (low >> count - place << count - place) + (1 << count - place - 1)))
    return ["bit %d" % place] + tree(low, middle, place + 1, count, names) + tree(middle, high, place + 1, count, names)


def inner(k, formats, fields):
    width = max(1, (formats - 1).bit_length())
    names = ["f%d" % n for n in range(formats)]
    text = "m%d { UNCOMPRESSED { %s} " % (k, "".join("x%d [8]; " % i for i in range(fields)))
    lines = ["method m%d" % k] + tree(0, formats, 0, width, names)
    for n, name in enumerate(names):
        text += "COMPRESSED %s { d =:= '%s' [%d]; %s} " % (name, bits(n, width), width, "".join("x%d =:= irregular(8) [8]; " % i for i in range(fields)))
        lines += ["format " + name, "read", "length d C method", "take d", "library d up"]
        for i in range(fields):
            lines += ["length x%d C method" % i, "take x%d" % i, "library x%d up" % i]
        lines += ["write", "library d down", "library d up"]
        for i in range(fields):
            lines += ["length x%d U method" % i, "take x%d" % i, "library x%d down" % i]
    return text + "}\n", lines


def whole(methods, formats, fields):
    """A profile and a valid certificate of it, and how many steps that has."""
    count = methods // 2
    width = max(1, (count - 1).bit_length())
    names = ["t%d" % n for n in range(count)]
    text, lines = "top { UNCOMPRESSED { a; b; } ", ["rohcfn-certificate 1", "method top"] + tree(0, count, 0, width, names)
    for n, name in enumerate(names):
        text += "COMPRESSED %s { d =:= '%s' [%d]; a =:= m%d; b =:= m%d; } " % (name, bits(n, width), width, 2 * n, 2 * n + 1)
        lines += ["format " + name, "read", "length d C method", "take d", "call a", "call b", "library d up"]
        lines += ["write", "library d down", "library d up", "call a", "call b"]
    text += "}\n"
    for k in range(2 * count):
        more, plans = inner(k, formats, fields)
        text, lines = text + more, lines + plans
    lines.append("end")
    data = "=== words\ncheck --top top\n=== profile\n%s=== certificate\n%s" % (text, "".join(it + "\n" for it in lines))
    steps = sum(not it.startswith(("method", "format", "bit", "leaf", "none")) for it in lines)
    return steps, data.encode(), 0, b"accepted\n", len(data)


def main():
    print("| grown | steps | input octets | ms | ns a step | peak MiB | octets beyond 32 MiB an octet |")
    print("|---|---|---|---|---|---|---|")
    sizes = {
        "methods": [(30, 8, 6), (60, 8, 6), (120, 8, 6)],
        "formats": [(120, 2, 6), (120, 4, 6), (120, 8, 6)],
        "fields": [(120, 8, 2), (120, 8, 4), (120, 8, 8)],
    }
    report("check", all([grows(name, [whole(*it) for it in sizes[name]], 256) for name in sizes]))


if __name__ == "__main__":
    main()
