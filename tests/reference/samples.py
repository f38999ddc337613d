"""Sample profiles: their text, their normal form written out by hand (docs/NOTATION.md) and certificates.

The certificates of tick and opt are those that docs/FORMATS.md's order of steps gives; seq's and the others' were written by that order by hand. Those of mode, turn
and nest are of version 2; without it mode and nest have no tree, and turn has no plan."""
from .reading import Field, Format, Method

TICK = """tick
{
  UNCOMPRESSED {
    sn [8];
  }
  COMPRESSED short {
    d =:= '0' [1];
    sn =:= lsb(4, 1) [4];
    c =:= crc(3, 0x06, 0x07, THIS.UVALUE, THIS.ULENGTH) [3];
  }
  COMPRESSED full {
    d =:= '1' [1];
    sn =:= irregular(8) [8];
  }
}
"""

OPT = """static_or_irreg(flag, width)
{
  UNCOMPRESSED { field [width]; }
  COMPRESSED irreg_enc { ENFORCE(flag == 1); field =:= irregular(width) [width]; }
  COMPRESSED static_enc { ENFORCE(flag == 0); field =:= static [0]; }
}
opt
{
  UNCOMPRESSED { ttl [8]; }
  COMPRESSED {
    flag =:= irregular(1) [1];
    ttl =:= static_or_irreg(flag.CVALUE, 8) [0, 8];
  }
}
"""

SEQ = """seq { UNCOMPRESSED { v [8]; } CONTROL { msn [8]; }
  INITIAL { msn =:= uncompressed_value(8, 0); }
  COMPRESSED { msn =:= lsb(4, 0) [4]; v =:= uncompressed_value(8, msn.UVALUE * 2); } }
"""

WRAP = """kind
{
  UNCOMPRESSED { x [8]; }
  COMPRESSED one { d =:= '0' [1]; x =:= uncompressed_value(8, 1); }
  COMPRESSED two { d =:= '10' [2]; x =:= uncompressed_value(8, 2); }
  COMPRESSED three { d =:= '11' [2]; x =:= uncompressed_value(8, 3); }
}
wrap
{
  UNCOMPRESSED { k [8]; tail [1]; }
  COMPRESSED { k =:= kind [1, 2]; tail =:= irregular(1) [1]; }
}
"""

TWIN = """twin { UNCOMPRESSED { x [8]; }
  COMPRESSED a { d =:= '0' [1]; x =:= irregular(8) [8]; }
  COMPRESSED b { d =:= '0' [1]; x =:= static [0]; } }
"""

VAST = """vast { UNCOMPRESSED { x [24]; }
  COMPRESSED { a =:= irregular(12) [12]; b =:= irregular(12) [12];
    x =:= uncompressed_value(24, a.UVALUE * 4096 + b.UVALUE); } }
"""


MODE = """mode { UNCOMPRESSED { x [8]; } CONTROL { m =:= static [1]; }
  INITIAL { m =:= uncompressed_value(1, 0); }
  COMPRESSED a { ENFORCE(m.UVALUE == 0); x =:= irregular(8) [8]; }
  COMPRESSED b { ENFORCE(m.UVALUE == 1); x =:= lsb(4, 0) [4]; } }
"""

TURN = """turn { UNCOMPRESSED { x [4]; }
  CONTROL { s [4]; ENFORCE((x.UVALUE + 5) % 16 == s.UVALUE); }
  COMPRESSED { s =:= irregular(4) [4]; } }
"""

NEST = """part(k) { UNCOMPRESSED { v [3]; }
  CONTROL { m [1]; s [3]; ENFORCE(s.UVALUE == (k + v.UVALUE) % 8); }
  INITIAL { m =:= uncompressed_value(1, 1); }
  COMPRESSED near { d =:= '0' [1]; ENFORCE(m.UVALUE == 0); m =:= static [0]; s =:= lsb(1, 0) [1]; }
  COMPRESSED far { d =:= '0' [1]; ENFORCE(m.UVALUE != 0); m =:= static [0]; s =:= lsb(2, 0) [2]; }
  COMPRESSED full { d =:= '1' [1]; m =:= uncompressed_value(1, k) [0]; s =:= irregular(3) [3]; } }
nest { UNCOMPRESSED { g [1]; f [3]; }
  COMPRESSED { g =:= irregular(1) [1]; f =:= part(g.UVALUE) [2, 3, 4]; } }
"""

BOTH = """inner(k) { UNCOMPRESSED { v [4]; } CONTROL { m =:= static [1]; }
  COMPRESSED a { ENFORCE(m.UVALUE == 0); ENFORCE(k == 0); v =:= irregular(4) [4]; }
  COMPRESSED b { ENFORCE(m.UVALUE == 1); ENFORCE(1 == k); v =:= irregular(4) [4]; } }
both { UNCOMPRESSED { g [1]; f [4]; }
  COMPRESSED { g =:= irregular(1) [1]; f =:= inner(g.UVALUE) [4]; } }
"""


def bracket(field, side, *lengths):
    return ("bracket", field, side, list(lengths))


def enforce(operator, left, right):
    return ("enforce", (operator, left, right))


def literal(name, bits):
    return Field(name, "local", ("compressed_value", len(bits), int(bits, 2)), (0, 0), (len(bits), len(bits)))


FLAG, WIDTH, K = ("parameter", "flag"), ("parameter", "width"), ("parameter", "k")
M_VALUE, S_VALUE, V_VALUE, X_VALUE = [(it, "UVALUE") for it in "msvx"]
PART = [bracket("v", "U", 3), bracket("m", "U", 1), bracket("s", "U", 3), enforce("==", S_VALUE, ("%", ("+", K, V_VALUE), 8))]


def part(m, s, size, bit):
    """The fields of a format of `part`."""
    return [Field("v", "header", None, (3, 3)), Field("m", "control", m, (1, 1)), Field("s", "control", s, (3, 3), (size, size)), literal("d", bit)]


NORMAL = {
    "tick": [Method("tick", {}, [
        Format("short", [Field("sn", "header", ("lsb", 4, 1), (8, 8), (4, 4)), literal("d", "0"), Field("c", "local", ("crc", 3, 6, 7, ("THIS", "UVALUE"), ("THIS", "ULENGTH")), (0, 0), (3, 3))],
               ["d", "sn", "c"], [bracket("sn", "U", 8), bracket("d", "C", 1), bracket("sn", "C", 4), bracket("c", "C", 3)]),
        Format("full", [Field("sn", "header", ("irregular", 8), (8, 8), (8, 8)), literal("d", "1")], ["d", "sn"], [bracket("sn", "U", 8), bracket("d", "C", 1), bracket("sn", "C", 8)]),
    ])],
    "opt": [
        Method("static_or_irreg", {"flag": (0, 1), "width": (8, 8)}, [
            Format("irreg_enc", [Field("field", "header", ("irregular", WIDTH), (0, 64), (0, 64))], ["field"], [bracket("field", "U", WIDTH), enforce("==", FLAG, 1), bracket("field", "C", WIDTH)]),
            Format("static_enc", [Field("field", "header", ("static",), (0, 64), (0, 0))], ["field"], [bracket("field", "U", WIDTH), enforce("==", FLAG, 0), bracket("field", "C", 0)]),
        ]),
        Method("opt", {}, [
            Format("", [Field("ttl", "header", ("call", 0, [("flag", "CVALUE"), 8]), (8, 8), (0, 8)), Field("flag", "local", ("irregular", 1), (1, 1), (1, 1))], ["flag", "ttl"],
                   [bracket("ttl", "U", 8), bracket("flag", "C", 1), bracket("ttl", "C", 0, 8)]),
        ]),
    ],
    "seq": [Method("seq", {}, [
        Format("", [Field("v", "header", ("uncompressed_value", 8, ("*", ("msn", "UVALUE"), 2)), (8, 8), (0, 0)), Field("msn", "control", ("lsb", 4, 0), (8, 8), (4, 4), asked=True)], ["msn", "v"],
               [bracket("v", "U", 8), bracket("msn", "U", 8), bracket("msn", "C", 4)]),
    ])],
    "wrap": [
        Method("kind", {}, [
            Format(name, [Field("x", "header", ("uncompressed_value", 8, i), (8, 8), (0, 0)), literal("d", bits)], ["d", "x"], [bracket("x", "U", 8), bracket("d", "C", len(bits))])
            for i, name, bits in ((1, "one", "0"), (2, "two", "10"), (3, "three", "11"))
        ]),
        Method("wrap", {}, [
            Format("", [Field("k", "header", ("call", 0, []), (8, 8), (1, 2)), Field("tail", "header", ("irregular", 1), (1, 1), (1, 1))], ["k", "tail"],
                   [bracket("k", "U", 8), bracket("tail", "U", 1), bracket("k", "C", 1, 2), bracket("tail", "C", 1)]),
        ]),
    ],
    "twin": [Method("twin", {}, [
        Format("a", [Field("x", "header", ("irregular", 8), (8, 8), (8, 8)), literal("d", "0")], ["d", "x"], [bracket("x", "U", 8), bracket("d", "C", 1), bracket("x", "C", 8)]),
        Format("b", [Field("x", "header", ("static",), (8, 8), (0, 0)), literal("d", "0")], ["d", "x"], [bracket("x", "U", 8), bracket("d", "C", 1), bracket("x", "C", 0)]),
    ])],
    "vast": [Method("vast", {}, [
        Format("", [Field("x", "header", ("uncompressed_value", 24, ("+", ("*", ("a", "UVALUE"), 4096), ("b", "UVALUE"))), (24, 24), (0, 0)), Field("a", "local", ("irregular", 12), (12, 12), (12, 12)),
                    Field("b", "local", ("irregular", 12), (12, 12), (12, 12))], ["a", "b", "x"], [bracket("x", "U", 24), bracket("a", "C", 12), bracket("b", "C", 12)]),
    ])],
    "mode": [Method("mode", {}, [
        Format("a", [Field("x", "header", ("irregular", 8), (8, 8), (8, 8)), Field("m", "control", ("static",), (1, 1))], ["x"],
               [bracket("x", "U", 8), bracket("m", "U", 1), enforce("==", M_VALUE, 0), bracket("x", "C", 8)]),
        Format("b", [Field("x", "header", ("lsb", 4, 0), (8, 8), (4, 4)), Field("m", "control", ("static",), (1, 1))], ["x"],
               [bracket("x", "U", 8), bracket("m", "U", 1), enforce("==", M_VALUE, 1), bracket("x", "C", 4)]),
    ])],
    "turn": [Method("turn", {}, [
        Format("", [Field("x", "header", None, (4, 4)), Field("s", "control", ("irregular", 4), (4, 4), (4, 4))], ["s"],
               [bracket("x", "U", 4), bracket("s", "U", 4), enforce("==", ("%", ("+", X_VALUE, 5), 16), S_VALUE), bracket("s", "C", 4)]),
    ])],
    "nest": [
        Method("part", {"k": (0, 1)}, [
            Format("near", part(("static",), ("lsb", 1, 0), 1, "0"), ["d", "m", "s"], PART + [bracket("d", "C", 1), enforce("==", M_VALUE, 0), bracket("m", "C", 0), bracket("s", "C", 1)]),
            Format("far", part(("static",), ("lsb", 2, 0), 2, "0"), ["d", "m", "s"], PART + [bracket("d", "C", 1), enforce("!=", M_VALUE, 0), bracket("m", "C", 0), bracket("s", "C", 2)]),
            Format("full", part(("uncompressed_value", 1, K), ("irregular", 3), 3, "1"), ["d", "m", "s"], PART + [bracket("d", "C", 1), bracket("m", "C", 0), bracket("s", "C", 3)]),
        ]),
        Method("nest", {}, [
            Format("", [Field("g", "header", ("irregular", 1), (1, 1), (1, 1)), Field("f", "header", ("call", 0, [("g", "UVALUE")]), (3, 3), (2, 4))], ["g", "f"],
                   [bracket("g", "U", 1), bracket("f", "U", 3), bracket("g", "C", 1), bracket("f", "C", 2, 3, 4)]),
        ]),
    ],
    "both": [
        Method("inner", {"k": (0, 1)}, [
            Format(name, [Field("v", "header", ("irregular", 4), (4, 4), (4, 4)), Field("m", "control", ("static",), (1, 1))], ["v"],
                   [bracket("v", "U", 4), bracket("m", "U", 1), enforce("==", M_VALUE, i), told, bracket("v", "C", 4)])
            for i, name, told in ((0, "a", enforce("==", K, 0)), (1, "b", enforce("==", 1, K)))
        ]),
        Method("both", {}, [
            Format("", [Field("g", "header", ("irregular", 1), (1, 1), (1, 1)), Field("f", "header", ("call", 0, [("g", "UVALUE")]), (4, 4), (4, 4))], ["g", "f"],
                   [bracket("g", "U", 1), bracket("f", "U", 4), bracket("g", "C", 1), bracket("f", "C", 4)]),
        ]),
    ],
}


# of each format of `way` the bits before and behind its header of four bits, and what it asks of the reference of m or of the parameter k
WAYS = {"a": ("0", "0", "m ==", 0), "b": ("0", "0", "m !=", 0), "c": ("0", "1", "", 0), "d": ("10", "1", "k ==", 0), "e": ("10", "1", "k ==", 1), "f": ("11", "0110" * 9, "", 0), "g": ("11", "1010" * 9, "", 0)}


def fork():
    """The text and the normal form of a profile whose formats are told apart by bits up to 42 places from the first, by a reference and by a parameter."""
    text, way = "way(k) { UNCOMPRESSED { x [4]; } CONTROL { m =:= static [1]; } INITIAL { m =:= uncompressed_value(1, 0); }\n", Method("way", {"k": (0, 1)}, [])
    for name, (front, back, asked, value) in WAYS.items():
        told = "ENFORCE(%s %d); " % (asked.replace("m", "m.UVALUE"), value) if asked else ""
        text += "  COMPRESSED %s { %sd =:= '%s' [%d]; x =:= irregular(4) [4]; t =:= '%s' [%d]; }\n" % (name, told, front, len(front), back, len(back))
        fields = [Field("x", "header", ("irregular", 4), (4, 4), (4, 4)), Field("m", "control", ("static",), (1, 1)), literal("d", front), literal("t", back)]
        conditions = [enforce(asked[2:], M_VALUE if asked[0] == "m" else K, value)] if asked else []
        listed = [bracket("d", "C", len(front)), bracket("x", "C", 4), bracket("t", "C", len(back))]
        way.formats.append(Format(name, fields, ["d", "x", "t"], [bracket("x", "U", 4), bracket("m", "U", 1)] + conditions + listed))
    text += "}\nfork { UNCOMPRESSED { y [1]; f [4]; } COMPRESSED { y =:= irregular(1) [1]; f =:= way(y.UVALUE) [6, 7, 42]; } }\n"
    fields = [Field("y", "header", ("irregular", 1), (1, 1), (1, 1)), Field("f", "header", ("call", 0, [("y", "UVALUE")]), (4, 4), (6, 42))]
    return text, [way, Method("fork", {}, [Format("", fields, ["y", "f"], [bracket("y", "U", 1), bracket("f", "U", 4), bracket("y", "C", 1), bracket("f", "C", 6, 7, 42)])])]


FORK, NORMAL["fork"] = fork()


def lines(text):
    return "".join(it.strip() + "\n" for it in text.split(";"))


# those of each format of `part`
PART_PLANS = """read;library m up;library d up;length m C method;length s C method;length d C method;take d;take m;take s;library s up;length v U 0;solve v 3
    ;write;library m down;library d down;library m up;library d up;length v U 0;take v;length s U method;solve s 3;library s down"""

CERTIFICATES = {
    "tick": lines("""rohcfn-certificate 1;method tick;bit 0;leaf short;leaf full
        ;format short;read;library d up;library c up;length sn C method;length d C method;take d;take sn;library sn up;length c C method;take c
        ;write;library d down;library d up;library c up;length sn U method;take sn;library sn down;library c down
        ;format full;read;library d up;length sn C method;length d C method;take d;take sn;library sn up
        ;write;library d down;library d up;length sn U method;take sn;library sn down;end"""),
    "opt": lines("""rohcfn-certificate 1;method static_or_irreg;param flag 1;leaf irreg_enc;leaf static_enc
        ;format irreg_enc;read;length field C method;take field;library field up;write;length field U method;take field;library field down
        ;format static_enc;read;library field up;length field C method;take field;write;library field down;library field up;take field
        ;method opt;leaf -;format -;read;length flag C method;take flag;call ttl;library flag up
        ;write;length ttl U 0;length flag U method;length flag C method;choose flag;library flag down;call ttl;end"""),
    "seq": lines("""rohcfn-certificate 1;method seq;leaf -;format -
        ;read;length v C method;length msn C method;take msn;take v;library msn up;library v up
        ;write;ask msn;library v down;library msn down;library v up;take v;end"""),
    "wrap": lines("""rohcfn-certificate 1;method kind;bit 0;leaf one;bit 1;leaf two;leaf three
        ;format one;read;library x up;library d up;length x C method;length d C method;take d;take x;write;library x down;library d down;library x up;take x;library d up
        ;format two;read;library x up;library d up;length x C method;length d C method;take d;take x;write;library x down;library d down;library x up;take x;library d up
        ;format three;read;library x up;library d up;length x C method;length d C method;take d;take x;write;library x down;library d down;library x up;take x;library d up
        ;method wrap;leaf -;format -;read;call k;length tail C method;take tail;library tail up
        ;write;length k U 0;length tail U method;call k;take tail;library tail down;end"""),
    "vast": lines("""rohcfn-certificate 1;method vast;leaf -;format -
        ;read;length x C method;length a C method;length b C method;take a;take b;take x;library a up;library b up;library x up
        ;write;library x down;length x U method;take x;length a U method;length b U method;length a C method;length b C method;choose a;choose b;library a down;library b down;end"""),
    "mode": lines("""rohcfn-certificate 2;method mode;ref m 0;leaf a;leaf b
        ;format a;read;library m up;length x C method;take x;library x up;write;library m up;length x U method;take x;library x down
        ;format b;read;library m up;length x C method;take x;library x up;write;library m up;length x U method;take x;library x down;end"""),
    "turn": lines("""rohcfn-certificate 2;method turn;leaf -;format -
        ;read;length s C method;take s;library s up;length x U 0;solve x 2;write;length x U 0;take x;length s U method;solve s 2;library s down;end"""),
    "nest": lines("rohcfn-certificate 2;method part;bit 0;ref m 0;leaf near;leaf far;leaf full;" + "".join("format %s;%s;" % (it, PART_PLANS) for it in ("near", "far", "full")) + """method nest;leaf -
        ;format -;read;length g C method;take g;library g up;call f;write;length g U method;take g;call f;library g down;end"""),
}
TEXTS = {"tick": TICK, "opt": OPT, "seq": SEQ, "wrap": WRAP, "twin": TWIN, "vast": VAST, "mode": MODE, "turn": TURN, "nest": NEST, "both": BOTH, "fork": FORK}
TOPS = {name: len(NORMAL[name]) - 1 for name in NORMAL}
