"""Cases that are built by repetition: the limits, at and above them, and the fronts of a profile.

The places are counted here from the parts that the text is built of, by docs/FORMATS.md; none is taken from the program."""
import itertools
import re
import unicodedata

from .samples import TICK

PLAIN = b"plain\n{\n  UNCOMPRESSED { a [4]; b [12]; }\n  COMPRESSED {\n    d =:= '10' [2];\n    a =:= irregular(4) [4];\n    b =:= irregular(12) [12];\n  }\n}\n"

WIDE = b"wide { UNCOMPRESSED { x [64]; } COMPRESSED { x =:= irregular(64) [64]; } }\n"

NO_TOP = b"profile:1:1: E27 no such top method without parameters\n"

NO_SECTIONS = b"profile:1:1: E29 method m lacks one UNCOMPRESSED or named formats\n"

AT_THE_END = b"profile:2:1: E10 unexpected token\n"


def bundle(words, profile, part=b""):
    """The command words, a profile and a part with its heading."""
    return b"=== words\n" + words + b"\n=== profile\n" + profile + part


def shows(text):
    """`show` of the method m of a text of one line."""
    return bundle(b"show --top m", text.encode() + b"\n")


def fault(text, code, words):
    """The fault line of what stands right after the text."""
    return ("profile:1:%d: %s %s\n" % (len(text) + 1, code, words)).encode()


def too_many(text):
    """The fault line of a part too many right after the text."""
    return fault(text, "E15", "too many parts")


def counted(name, most, first, part, last, answer, status=1):
    """A text with as many parts as may be, and one with one more: its fault stands at the part too many. A part is told by its number."""
    parts = [part(number) for number in range(most + 1)]
    front = first + "".join(parts[:most])
    yield "%s: %d" % (name, most), shows(front + last), status, answer(first, parts[0])
    yield "%s: %d" % (name, most + 1), shows(front + parts[most] + last), 1, too_many(front + ("," if parts[most].startswith(",") else ""))


def counts():
    """The counts of parts. Without sections, a method lacks them; without methods, there is no top."""
    no_sections = lambda first, part: NO_SECTIONS
    no_top = lambda first, part: NO_TOP
    listed = lambda number: ",1" if number else "1"
    yield from counted("operators", 256, "K = 1", lambda number: "+1", ";", no_top)
    yield from counted("parameters", 32, "m(", lambda number: (",p%d" if number else "p%d") % number, ") { }", no_sections)
    yield from counted("statements of DEFAULT", 128, "m { DEFAULT { ", lambda number: "f%d =:= static; " % number, "} }", no_sections)
    yield from counted("formats", 64, "m { ", lambda number: "COMPRESSED { } ", "}", no_sections)
    yield from counted("methods", 128, "", lambda number: "m%s { } " % (number or ""), "", no_sections)
    yield from counted("constants", 1024, "", lambda number: "K%d = 1; " % number, "", no_top)
    header = "m { UNCOMPRESSED { x ["
    bracket = lambda first, part: ("method m\nformat - least 1 most 1\n0 1:%d\n" % len(header)).encode()
    yield from counted("expressions of a bracket", 32, header, listed, "]; } COMPRESSED { x =:= irregular(1); } }", bracket, 0)
    call = "m { UNCOMPRESSED { x [1]; } COMPRESSED { x =:= irregular("
    arguments = lambda first, part: fault(call[: -len("irregular(")], "E22", "wrong number of arguments for irregular")
    yield from counted("arguments", 32, call, listed, "); } }", arguments)


def nestings():
    """Brackets and negations, 64 and 65 deep."""
    for mark in "(!":
        yield "64 deep: %s" % mark, shows("K = " + mark * 64), 1, AT_THE_END
        yield "65 deep: %s" % mark, shows("K = " + mark * 65), 1, fault("K = " + mark * 64, "E11", "nesting is above 64")


def in_order():
    """Brackets 65 deep and 257 operators in one text: the first of them is told."""
    deep, operators = "(" * 65, "1" + " + 1" * 257
    yield "65 deep, then 257 operators", shows("K = " + deep + operators), 1, fault("K = " + deep[1:], "E11", "nesting is above 64")
    yield "257 operators, then 65 deep", shows("K = " + operators + " + " + deep), 1, too_many("K = 1" + " + 1" * 256 + " ")


def fields(count):
    """A profile of so many header fields of one bit, each listed."""
    header = "".join("f%d [1];\n" % number for number in range(count))
    listed = "".join("f%d =:= irregular(1) [1];\n" % number for number in range(count))
    return ("many {\n UNCOMPRESSED {\n%s }\n COMPRESSED {\n%s }\n}\n" % (header, listed)).encode()


def packed():
    """Statements and bits of what is packed. The 129th statement stands on line 131: two lines come before the first."""
    item = b"128:0123456789abcdef0123456789abcdef\n"
    items = b"=== items\n" + item
    yield "128 statements", bundle(b"pack --top many", fields(128), items), 0, item
    yield "129 statements", bundle(b"pack --top many", fields(129), items), 1, b"profile:131:1: E15 too many parts\n"
    for bits, answer in [(4096, b"item 1: F3 NoFormat\n"), (4097, b"item 1: F1 HeaderLength\n")]:
        items = b"=== items\n%d:%s\n" % (bits, b"00" * ((bits + 7) // 8))
        yield "a header of %d bits" % bits, bundle(b"pack --top wide", WIDE, items), 1, answer


def long_inputs():
    """A profile of 1 MiB and an input of 4 MiB, and one octet more."""
    mebibyte = 1 << 20
    for count, answer in [(mebibyte, NO_TOP), (mebibyte + 1, b"profile:1:1: E04 text is above 1 MiB\n")]:
        profile = b" " * (count - 1) + b"\n"
        yield "a profile of %d octets" % count, bundle(b"pack --top plain", profile, b"=== items\n"), 1, answer
    for count, answer in [(4 * mebibyte, b"bundle: I4 bad part -\n"), (4 * mebibyte + 1, b"bundle: I6 above 4 MiB\n")]:
        yield "%d octets" % count, b" " * count, 1, answer


def shown(name):
    """A part's name as its fault line has it: its first 80 characters, those of Unicode's categories Cc, Cf, Zl and Zp by their numbers, and two dots where it has more.
    (Of Cf that is so up to U+206F and of U+FEFF, and no other is tried.)"""
    front = "".join("\\u{%x}" % ord(it) if unicodedata.category(it) in ("Cc", "Cf", "Zl", "Zp") else it for it in name[:80])
    return front + (".." if len(name) > 80 else "")


def names():
    """Bad parts whose names have each of the first 1,024 characters but LF, which ends a name, and others; names of 79 to 81 characters, of 1 to 4 octets each;
    and names that are no text."""
    characters = [chr(number) for number in range(1024) if number != 10]
    others = ["\u2028", "\u202e", "\u200b", "\ud7ff", "\ue000", "\ufeff", "\uffff", "\U00010000", "\U0010ffff"]
    trials = ["a%sb" % "".join(characters[start:start + 60]) for start in range(0, len(characters), 60)] + ["".join(others), "\\u{1b}", "\\"]
    trials += ["".join(chr(it) for it in range(0x2000 + start, 0x2070, 2) if it != 0x2065) for start in (0, 1)]  # (U+2065 is none yet)
    trials += [it * count for it in ("x", "\x1b", "\x85", "\xe9", "\u20ac", "\U0001f600") for count in (79, 80, 81, 1000)]
    for name in trials:
        yield "a part of %d characters: %s" % (len(name), ascii(name[:2])), b"=== %s\n" % name.encode(), 1, ("bundle: I4 bad part %s\n" % shown(name)).encode()
    for octets in (b"\x80", b"\xc3", b"\xc0\x80", b"\xed\xa0\x80", b"\xf4\x90\x80\x80", b"x" * 100 + b"\xff", b"\xe2\x82" * 40):
        yield "a part that is no text: %s" % octets[:4].hex(), b"=== %s\n" % octets, 1, b"bundle: I4 bad part -\n"


def fronts():
    """Each front of the 77 tokens of `tick`, alone and followed by the word INITIAL. A section may begin after the tokens `tick {` and after each
    of the three sections, which end at the tokens 10, 55 and 76."""
    tokens = re.findall(r"\w+|'[01]*'|=:=|\S", TICK)
    assert len(tokens) == 77
    for count in range(78):
        front = " ".join(tokens[:count])
        if count < 77:
            yield "%d tokens" % count, shows(front), 1, AT_THE_END if count else NO_TOP
        goes_on = count in (2, 10, 55, 76)
        front += " " if front else ""
        yield "INITIAL after %d tokens" % count, shows(front + "INITIAL"), 1, AT_THE_END if goes_on else fault(front, "E10", "unexpected token")


def certificates():
    """Certificates of `tick` at a limit, and one step, node, depth or octet above it. The tree begins at line 3, the steps at line 8; what is whole lacks a format, or a leaf is wrong."""
    head = "rohcfn-certificate 1\nmethod tick\n"
    plan = head + "bit 0\nleaf short\nleaf full\nformat short\nread\n"
    for count, answer in [(2048, "check: V3 tick short read sn U"), (2049, "certificate:2056: K3 above limits")]:
        yield "%d steps" % count, plan + "library d up\n" * count + "write\nend\n", answer
    for depth, answer in [(128, "check: V5 tick node 8 short"), (129, "certificate:131: K3 above limits")]:
        yield "depth %d" % depth, head + "bit 0\n" + "".join("bit %d\n" % i for i in range(1, depth - 1)) + "none\n" * depth + "end\n", answer
    second = head.replace("1", "2")
    for depth, answer in [(128, "check: V4 tick node 127 short"), (129, "certificate:131: K3 above limits")]:
        yield "references of depth %d" % depth, second + "ref sn 0\n" * (depth - 1) + "none\n" * depth + "end\n", answer
    for count, answer in [(4095, "check: V4 tick node 11 short"), (4097, "certificate:4099: K3 above limits")]:
        yield "%d nodes" % count, head + whole_tree(12) * (count == 4095) + whole_tree(13) * (count == 4097) + "end\n", answer
    for count, answer in [(1 << 20, "certificate:1: K1 bad word"), ((1 << 20) + 1, "certificate:1: K3 above limits")]:
        yield "a text of %d octets" % count, "x" * (count - 1) + "\n", answer


def whole_tree(depth):
    """All nodes of a tree whose leaves have that depth, in preorder; each test is of bit 0."""
    if depth == 1:
        return "none\n"
    return "bit 0\n" + whole_tree(depth - 1) + whole_tree(depth - 1)


def checked():
    for name, text, answer in certificates():
        yield name, bundle(b"check --top tick", TICK.encode(), b"=== certificate\n" + text.encode()), 1, answer.encode() + b"\n"


def lines():
    """A line without events, and items of the greatest header and one more."""
    tick = TICK.encode()
    yield "a line without events", bundle(b"line --top tick", tick, b"=== events\n"), 0, b"\n"
    for bits, answer in [(4096, b"event 2: F3 NoFormat\n"), (4097, b"event 2: F1 HeaderLength\n")]:
        event = b"reset 0\nsend 0 %d:%s\n" % (bits, b"00" * ((bits + 7) // 8))
        yield "an event of %d bits" % bits, bundle(b"line --top wide", WIDE, b"=== events\n" + event), 1, answer


def crowded():
    """Sixteen formats of 120 fields of one bit, of which each two are parted by one field of their own and no other: a tree of tests would have 2^15 leaves."""
    pairs = list(itertools.combinations(range(16), 2))
    formats = []
    for number in range(16):
        encodings = ["'%d'" % pair.index(number) if number in pair else "irregular(1)" for pair in pairs]
        fields = "".join("p%d =:= %s [1]; " % (place, encoding) for place, encoding in enumerate(encodings))
        formats.append("  COMPRESSED f%d { %sx =:= irregular(1) [1]; }\n" % (number, fields))
    profile = "many {\n  UNCOMPRESSED { x [1]; }\n%s}\n" % "".join(formats)
    yield "a tree above the limit", bundle(b"prove --top many", profile.encode()), 1, b"prove: P3 Limit\n"


def tabled():
    """Sixty-four formats that six bits tell apart, one number each; a packet of five bits ends before the last test."""
    formats = "".join("  COMPRESSED f%d { d =:= '%s' [6]; x =:= uncompressed_value(6, %d); }\n" % (number, format(number, "06b"), number) for number in range(64))
    profile = ("six {\n  UNCOMPRESSED { x [6]; }\n%s}\n" % formats).encode()
    yield "a header for each format", bundle(b"pack --top six", profile, b"=== items\n6:94\n"), 0, b"6:94\n"
    for line, status, answer in [(b"6:94", 0, b"6:94 took 6\n"), (b"5:90", 1, b"packet 1: U1 Truncated\n")]:
        yield "a packet of %s bits for 64 formats" % line[:1].decode(), bundle(b"unpack --top six", profile, b"=== packets\n%s\n" % line), status, answer


def ones(count):
    """So many one bits: their octets in hex, filled with zero bits."""
    size = (count + 7) // 8
    return b"%0*x" % (2 * size, (1 << 8 * size) - (1 << 8 * size - count))


def widths():
    """A header of each width from 1 to 64 bits, all ones, packed to a bit more and read back; on a line it is filled to whole octets."""
    for width in range(1, 65):
        profile = b"gen { UNCOMPRESSED { x [%d]; } COMPRESSED { d =:= '1' [1]; x =:= irregular(%d) [%d]; } }\n" % (width, width, width)
        item, packet = b"%d:%s" % (width, ones(width)), b"%d:%s" % (width + 1, ones(width + 1))
        octets = b"00%s" % ones(width + 1)
        yield "%d ones packed" % width, bundle(b"pack --top gen", profile, b"=== items\n%s\n" % item), 0, packet + b"\n"
        yield "%d ones read" % width, bundle(b"unpack --top gen", profile, b"=== packets\n%s\n" % packet), 0, b"%s took %d\n" % (item, width + 1)
        yield "%d ones on a line" % width, bundle(b"line --top gen", profile, b"=== events\nsend 0 %s\n" % item), 0, b"%s\n0 %s\n" % (octets, item)
        yield "%d ones received" % width, bundle(b"line --receive --top gen", profile, b"=== octets\n%s\n" % octets), 0, b"0 %s\n" % item


def pick(width):
    """A header that is a local field of so many bits, and a certificate that chooses it. Its choice is step 5 of the plan to write."""
    profile = "pick { UNCOMPRESSED { x [%d]; } COMPRESSED { c =:= irregular(%d) [%d]; x =:= uncompressed_value(%d, c.UVALUE); } }\n" % (width, width, width, width)
    read = "length x C method;length c C method;take c;take x;library c up;library x up"
    write = "library x down;length x U method;take x;length c U method;length c C method;choose c;library c down"
    certificate = "rohcfn-certificate 1;method pick;leaf -;format -;read;%s;write;%s;end;" % (read, write)
    return profile.encode(), certificate.replace(";", "\n").encode()


def choices():
    """A choice of 16 bits, of which the last value fits, and one of 17 bits, which no step makes."""
    profile, certificate = pick(16)
    item = b"=== items\n16:ffff\n"
    yield "a choice of 16 bits", bundle(b"pack --top pick", profile, item), 0, b"16:ffff\n"
    yield "a choice of 16 bits by a certificate", bundle(b"pack --top pick", profile, b"=== certificate\n" + certificate + item), 0, b"16:ffff\n"
    yield "a choice of 16 bits proved", bundle(b"prove --top pick", profile), 0, certificate
    profile, certificate = pick(17)
    yield "a choice of 17 bits", bundle(b"prove --top pick", profile), 1, b"prove: P1 NoPlan pick - write c U c C\n"
    yield "a choice of 17 bits by a certificate", bundle(b"check --top pick", profile, b"=== certificate\n" + certificate), 1, b"check: V2 pick - write step 5\n"


def top(formats, before=""):
    """A method of these formats with a header of 17 bits, after other methods."""
    return (before + "top {\n  UNCOMPRESSED { x [17]; }\n%s}\n" % formats).encode()


def by_choices(width):
    """A choice of so many bits and one of 8, which are the header's number."""
    return top("  COMPRESSED { a =:= irregular(%d) [%d]; b =:= irregular(8) [8]; x =:= uncompressed_value(17, a.UVALUE * 256 + b.UVALUE); }\n" % (width, width))


def by_formats(first, second):
    """Two formats, each with a choice of so many bits; the headers of the second come after those of the first."""
    line = "  COMPRESSED %s { d =:= '%d' [1]; c =:= irregular(%d) [%d]; x =:= uncompressed_value(17, c.UVALUE + %d); }\n"
    return top(line % ("a", 0, first, first, 0) + line % ("b", 1, second, second, 1 << first))


def by_call(width):
    """A choice of so many bits, and one of 8 in the method that is called with it."""
    inner = "inner(k) {\n  UNCOMPRESSED { x [17]; }\n  COMPRESSED { b =:= irregular(8) [8]; x =:= uncompressed_value(17, k * 256 + b.UVALUE); }\n}\n"
    return top("  COMPRESSED { a =:= irregular(%d) [%d]; x =:= inner(a.UVALUE) [8]; }\n" % (width, width), inner)


def candidates():
    """Profiles of 65,536 candidates, whose headers are the numbers up to 65,535, the last one by the last candidate, and profiles of more."""
    for name, profile in [("two choices", by_choices(8)), ("two formats", by_formats(15, 15)), ("a call", by_call(8))]:
        yield "65536 candidates by %s" % name, bundle(b"check --top top", profile), 0, b"accepted\n"
        yield "the last of 65536 candidates by %s" % name, bundle(b"pack --top top", profile, b"=== items\n17:7fff80\n"), 0, b"16:ffff\n"
        yield "none of 65536 candidates by %s" % name, bundle(b"pack --top top", profile, b"=== items\n17:800000\n"), 1, b"item 1: F3 NoFormat\n"
    for name, profile in [("131072 candidates by two choices", by_choices(9)), ("65537 candidates by two formats", by_formats(16, 0)), ("131072 candidates by a call", by_call(9))]:
        yield name, bundle(b"check --top top", profile), 1, b"check: V6 candidates\n"


def chains():
    """Sixteen methods, each of which calls the next, and the last takes a header of 4,096 bits; the packed bits, one for each method before and 8 more, are few."""
    last = "m16 { UNCOMPRESSED { %s} COMPRESSED { %s} }\n" % ("".join("x%d [64]; " % i for i in range(64)), "".join("x%d =:= irregular(64) [64]; " % i for i in range(64)))
    others = "".join("m%d { UNCOMPRESSED { x [4096]; } COMPRESSED { x =:= m%d [4096]; } }\n" % (i, i + 1) for i in range(15, 0, -1))
    bits = b"4096:%s\n" % (b"5a" * 512)
    yield "sixteen methods in a chain", bundle(b"pack --top m1", (last + others).encode(), b"=== items\n" + bits), 0, bits


def longest():
    """A profile of 8,192 packed bits, half of them a header of 4,096, and one of a bit more: 127 fields of 64 bits, and a call for the rest."""
    header = ["x%d" % number for number in range(64)]
    fields = "".join("%s =:= irregular(64) [64]; " % it for it in header) + "".join("d%d =:= '%s' [64]; " % (number, "0" * 64) for number in range(63))
    for rest, status, answer in [(64, 0, b"accepted\n"), (65, 1, b"check: V8 length\n")]:
        inner = "inner { UNCOMPRESSED { } COMPRESSED { d =:= '%s' [64]; e =:= compressed_value(%d, 0); } }\n" % ("0" * 64, rest - 64)
        profile = inner + "top { UNCOMPRESSED { %s} COMPRESSED { %sd63 =:= inner; } }\n" % ("".join("%s [64]; " % it for it in header), fields)
        yield "%d packed bits" % (8128 + rest), bundle(b"check --top top", profile.encode()), status, answer


def both_above():
    """A profile with more candidates than the top may have, and more packed bits: two choices of 9 bits, and 4,160 bits from each of two calls."""
    inner = "inner { UNCOMPRESSED { } COMPRESSED { %s} }\n" % "".join("c%d =:= compressed_value(64, 0); " % number for number in range(65))
    choices = "a =:= irregular(9) [9]; b =:= irregular(9) [9]; x =:= uncompressed_value(18, a.UVALUE * 512 + b.UVALUE); "
    profile = inner + "top { UNCOMPRESSED { x [18]; } COMPRESSED { %sp =:= inner; q =:= inner; } }\n" % choices
    yield "candidates and packed bits above their limits", bundle(b"check --top top", profile.encode()), 1, b"check: V6 candidates\n"


def sent_both_ways(name, profile, header, packet, count, certificate=b""):
    """A header packed, and its packet of so many bits read and, after a flow's octet, heard."""
    yield name + " packed", bundle(b"pack --top top", profile, certificate + b"=== items\n%s\n" % header), 0, packet + b"\n"
    yield name + " read", bundle(b"unpack --top top", profile, certificate + b"=== packets\n%s\n" % packet), 0, b"%s took %d\n" % (header, count)
    octets = b"00" + packet.split(b":")[1]
    yield name + " received", bundle(b"line --receive --top top", profile, certificate + b"=== octets\n%s\n" % octets), 0, b"0 %s\n" % header


def greatest():
    """Headers of 4,095 and 4,096 bits that are sent as they are, and packets of 5,056 and 8,192 bits, which have zero bits after such a header."""
    for last, zeros in [(63, 0), (64, 0), (64, 15), (64, 64)]:
        fields = [("x%d" % number, 64 if number < 63 else last) for number in range(64)]
        header = "".join("%s [%d]; " % it for it in fields)
        listed = "".join("%s =:= irregular(%d) [%d]; " % (name, width, width) for name, width in fields)
        listed += "".join("d%d =:= '%s' [64]; " % (number, "0" * 64) for number in range(zeros))
        profile = "top { UNCOMPRESSED { %s} COMPRESSED { %s} }\n" % (header, listed)
        bits = 4032 + last
        item, packet = b"%d:%s" % (bits, b"5a" * 512), b"%d:%s%s" % (bits + 64 * zeros, b"5a" * 512, b"00" * 8 * zeros)
        yield from sent_both_ways("a header of %d bits in %d" % (bits, bits + 64 * zeros), profile.encode(), item, packet, bits + 64 * zeros)


def paired(depth, offset=0):
    """The nodes of a tree of tests seven apart: each two of them take a table of 256 entries, and the next two stand eight bits on, below two of its three ends."""
    return "bit %d\n%sbit %d\n%sleaf -\n" % (offset, paired(depth - 1, offset + 8), offset + 7, paired(depth - 1, offset + 8)) if depth else "leaf -\n"


def crammed():
    """A tree whose 255 tables have 65,280 entries, all but 256 of those that may be."""
    profile = b"top { UNCOMPRESSED { x [64]; y [64]; } COMPRESSED { x =:= irregular(64) [64]; y =:= irregular(64) [64]; } }\n"
    read = "length x C method;length y C method;take x;take y;library x up;library y up;"
    write = "length x U method;length y U method;take x;take y;library x down;library y down;"
    certificate = "rohcfn-certificate 1\nmethod top\n%sformat -\nread\n%swrite\n%send\n" % (paired(8), read.replace(";", "\n"), write.replace(";", "\n"))
    for octets in (b"5a" * 16, b"ff" * 16, b"7f" * 16):
        item = b"128:" + octets
        yield from sent_both_ways("tables of 65280 entries and %s" % octets[:2].decode(), profile, item, item, 128, b"=== certificate\n" + certificate.encode())


def refused(count, others):
    """A chain of so many methods, the top among them: two formats of each call the next one, and those of the last want another header. Further formats of the top
    call a method each, which has so many formats that want another header. Beside the text the lines of `why` on the item 8:07."""
    wanting = lambda name, formats: "%s { UNCOMPRESSED { v [8]; } %s}" % (
        name, "".join("COMPRESSED f%d { mark =:= '%s' [2]; v =:= uncompressed_value(8, %d); } " % (it, format(it, "02b"), it) for it in range(formats)))
    calling = lambda name, called: "%s { UNCOMPRESSED { x; } %s}" % (
        name, "".join("COMPRESSED f%d { mark =:= '%s' [3]; x =:= %s; } " % (it, format(it, "03b"), to) for it, to in enumerate(called)))
    names = ["m%d" % it for it in range(count)]
    wanted = {names[-1]: 2, **{"n%d" % it: formats for it, formats in enumerate(others)}}
    calls = {name: [names[it + 1]] * 2 + ["n%d" % other for other in range(len(others)) if it == 0] for it, name in enumerate(names[:-1])}
    texts = [calling(name, called) for name, called in calls.items()] + [wanting(name, formats) for name, formats in wanted.items()]
    line = {text.split()[0]: number for number, text in enumerate(texts, 1)}

    def told(name, depth):
        for it in range(wanted.get(name, 0)):
            place = "%d:%d" % (line[name], len(name) + len(" { UNCOMPRESSED { v ") + 1)
            yield "%s: %s%s.f%d: uncompressed_value of v: the header has 8:07, and 8:%02x is due\n" % (place, "  " * depth, name, it, it)
        for it, called in enumerate(calls.get(name, [])):
            yield "%d:1: %s%s.f%d: nothing goes in x, by no format of %s\n" % (line[name], "  " * depth, name, it, called)
            yield from told(called, depth + 1)

    return "\n".join(texts) + "\n", list(told("m0", 0))


def reasons():
    """As many lines of `why` as may be, one more, and twice as many. Where one format takes more than half of the looks that may be, what stands inside isn't told."""
    for name, count, others in (("all", 11, (1,)), ("one too many", 11, (2,)), ("twice", 12, ())):
        text, lines = refused(count, others)
        last = "more stands against these formats, and only 4096 lines are told\n" if len(lines) > 4096 else ""
        answer = "item 1: F3 NoFormat\n" + "".join(lines[:4096]) + last
        yield "%d lines of reasons, %s" % (len(lines), name), bundle(b"why --items --top m0", text.encode(), b"=== items\n8:07\n"), 0, answer.encode()
    answer = "item 1: F3 NoFormat\n" + "".join("1:1: m0.f%d: nothing simple stands against it\n" % it for it in range(2))
    yield "reasons in 16 methods", bundle(b"why --items --top m0", refused(16, ())[0].encode(), b"=== items\n8:07\n"), 0, answer.encode()


def cases():
    """Name, bundle, status and output of each."""
    parts = (counts, nestings, in_order, packed, long_inputs, names, fronts, checked, lines, crowded, tabled, widths, choices, candidates, chains, longest, both_above, greatest, crammed, reasons)
    for part in parts:
        yield from part()
