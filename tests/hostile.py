"""What bin/rohcfn does with what a stranger gives it, or with streams that can't be read or written: a table of calls, each with its status, what it says, and
what time and memory it may take. Some go to a program that prints its words and its input, some to the built one, some to none.

What is due is written by hand here, by docs/USAGE.md; the times and sizes are those of docs/LIMITS.md."""
import collections
import concurrent.futures
import os
import pathlib
import shutil
import signal
import struct
import subprocess
import sys
import tempfile
import threading

from .files import ETHERNET, Place, capture
from .program import EXAMPLES, ROOT, built

PROBE = """probe
{
  UNCOMPRESSED { version =:= uncompressed_value(8, 1) [8]; hops [8]; sn [8]; }
  COMPRESSED same { kind =:= '0' [1]; hops =:= static [0]; sn =:= lsb(4, 1) [4]; }
  COMPRESSED full { kind =:= '1' [1]; hops =:= irregular(8) [8]; sn =:= irregular(8) [8]; }
}
"""
BUNDLE = "=== words\npack --top probe\n=== items\n24:014007\n=== profile\n" + PROBE
FIELDS = "i [32]; n [32];"
BIDI, SHOWN = "a\u202eb\x1b[2J\u2066c\u061c", "a\\u{202e}b\\u{1b}[2J\\u{2066}c\\u{61c}"
MIB, LISTED, COUNTED = 1 << 20, 32, 65_536
LONGEST = 60  # seconds after which a call is ended
# Seconds are due of a processor that does this work in so many of them. A slower one, or one that is shared, has as many times longer.
WORK, PACE = "t = {}\nfor n in range(600_000): t[n % 997] = t.get(n % 991, 0) + len(str(n))\nprint(sum(t.values()))", 0.4
ESP4 = bytes.fromhex("4500003000074000403200007f0000017f0000020000abcd00010007ffff")
RT = '#!/bin/sh\necho "$1" >>"$0.calls"\n[ ! -d crates/rohcfn ] || { mkdir -p crates/rohcfn/out && touch crates/rohcfn/out/rohcfn; }\n[ "$1" = try ] || exit 0\ncat\necho "checked: ended status=0" >&2\necho "run=ended status=0 runners=1" >&2\n'

# A call in bash, where "$0" is bin/rohcfn: its name, the call, the status, what is printed and said (texts that stand there, or None), and at most how many
# seconds of the processor, MiB and lines it takes.
Row = collections.namedtuple("Row", "name call status printed said seconds mib lines", defaults=(None, None, 2, 100, 12))
# How a call ended, what it printed and said, and what it took.
Seen = collections.namedtuple("Seen", "status printed said seconds mib")


def profile(fields=FIELDS, more="", front=""):
    return "%stop { UNCOMPRESSED { %s } %s COMPRESSED { } }\n" % (front, fields, more)


def packets_of(count, octets=b""):
    """A capture of so many packets of ESP, each of another flow."""
    for at in range(count):
        frame = ETHERNET + ESP4[:12] + (0x0A000000 + at).to_bytes(4, "big") + ESP4[16:28] + octets
        yield struct.pack("<IIII", 1, 2, len(frame), len(frame)) + frame


def files():
    """The files that the calls name, each with its text."""
    yield from parts()
    yield from computed()
    yield from captures()
    yield from long()


def parts():
    """A profile, what would begin a part of its own, and parts that are long."""
    yield "p.fn", PROBE
    yield "heading", "8:01\n8:02\n=== context\nhops 8:40\n"
    yield "crlf", "8:01\r\n=== context\r\n"
    yield "long context", "17:a00380\n" * 419_431 + "=== context\nsn 8:07\n"
    yield "long octets", "00a00380\n" + "0 24:014007\n" * 420_000
    yield "long items", "24:014007\n" * 420_000


def computed():
    """Profiles with numbers, brackets and fields that the script computes with."""
    yield "powers.fn", profile(front="A = 2 ^ 127;\nB = A ^ 127;\nC = B ^ 127;\nD = C ^ 127;\n")
    yield "products.fn", profile("i [A * A * A];", front="A = 2 ^ 120;\n")
    yield "digits.fn", profile("i [%s];" % ("9" * 100_000))
    yield "hex.fn", profile("i [0x%s]; n [32];" % ("0" * 1000 + "20"))
    yield "brackets.fn", profile(more="CONTROL { ENFORCE(%s1%s == r.UVALUE); r [1]; }" % ("(" * 20_000, ")" * 20_000))
    yield "deep.fn", profile(more="CONTROL { r [%s1%s]; }" % ("(" * 20_000, ")" * 20_000))
    yield "wide.fn", profile(more="CONTROL { msn [1000000000000]; }")
    yield "negative.fn", profile(more="CONTROL { msn [0 - 20]; }")
    yield "many.fn", profile("x [1]; " * 30_000)
    yield "nothing.fn", profile("x [0]; " * 30_000 + FIELDS)
    yield "raised.fn", profile("i [(2 ^ 127) ^ 127];")
    yield "esp.fn", profile()


def captures():
    """Captures."""
    yield "one", capture(1, [ETHERNET + ESP4])
    yield "two", capture(1, [ETHERNET + ESP4, ETHERNET + ESP4[:19] + b"\x03" + ESP4[20:]])
    yield "endless", capture(1, []) + struct.pack("<IIII", 1, 2, 0xFFFFFFFF, 0xFFFFFFFF) + bytes(2 * MIB)
    yield "long packet", capture(1, [ETHERNET + ESP4 + bytes(3 * MIB), ETHERNET + ESP4])
    yield "tags", capture(1, [bytes(12) + b"\x81\x00\x00\x07" * 500_000 + ESP4])
    yield "flows", capture(1, []) + b"".join(packets_of(100_000))
    yield "empty packets", capture(1, []) + struct.pack("<IIII", 1, 2, 0, 0) * 600_000
    yield "same flow", capture(1, []) + b"".join(packets_of(1)) * 250_000


def long():
    """Texts of 1 MB; and names and a text with what a terminal obeys."""
    yield "quotes.fn", "'" * MIB
    yield "open.fn", "a {" * (MIB // 3)
    yield "constants.fn", "a = 1;" * (MIB // 6)
    yield "comments.fn", "/*/" * (MIB // 3)
    yield "names.fn", "a" * MIB
    yield "numbers.fn", "1" * MIB
    yield "marks.fn", "(" * MIB
    yield "lines.fn", "\n" * MIB
    yield "statements.fn", "q { UNCOMPRESSED { %s} COMPRESSED { ! } }" % ("x [8]; " * 100)
    calls = "".join("COMPRESSED f%d { d =:= nix(1%s); }" % (number, "+1" * 90) for number in range(40))
    yield "unknown.fn", "".join("m%d { UNCOMPRESSED { x [8]; } %s }\n" % (at, calls) for at in range(127))
    yield "bidi.fn", "q { UNCOMPRESSED { x [8]; } \u202e\u2066\x1b[31m "
    yield BIDI, "q { } ;;\n"


def smuggled():
    """Words and files that would begin a part of their own, and files that aren't read to their end."""
    feed = "$'24:014008\\n=== context\\nhops 8:40\\nsn 8:07'"
    yield Row("a line feed in --item", '"$0" pack p.fn --item ' + feed, 2, "", "rohcfn: --item takes one line, and its word has a line feed\n")
    yield Row("a line feed in --packet", '"$0" unpack p.fn --packet=' + feed, 2, "", "rohcfn: --packet takes one line, and its word has a line feed\n")
    yield Row("a line feed at the end", "\"$0\" pack p.fn --item $'24:014008\\n'", 2, "", "rohcfn: --item takes one line, and its word has a line feed\n")
    yield Row("a heading as an item", '"$0" pack p.fn --item "=== context"', 2, "", "rohcfn: --item:1: a line that begins with `=== ` can't stand in a bundle\n")
    for command, option in (("pack", "items"), ("unpack", "packets"), ("check", "certificate"), ("line", "events"), ("line", "octets")):
        line = 3 if option != "packets" else None
        yield Row("a heading in --%s" % option, '"$0" %s p.fn --%s heading' % (command, option), 2 if line else 7, "" if line else "8:01\n8:02\n=== profile\n",
                  "rohcfn: heading:3: a line that begins with `=== ` can't stand in a bundle\n" if line else "")
    yield Row("a heading in --items, with CR", '"$0" pack p.fn --items crlf', 2, "", "rohcfn: crlf:2: a line that begins with `=== ` can't stand in a bundle\n")
    yield Row("two headings in --from-context", 'cat heading heading | "$0" pack p.fn --item 8:01 --from-context -', 2, "", "rohcfn: -:4: a line that begins with `=== ` can't stand in a bundle\n")
    yield Row("a heading in a profile", '"$0" show heading', 2, "", "rohcfn: heading:3: a line that begins with `=== ` can't stand in a bundle\n")
    yield Row("a context after 4 MiB of packets", '"$0" pack p.fn --item 8:01 --from-context "long context"', 7, "=== context\nsn 8:07\n=== profile\n", "")
    yield Row("4 MiB of items after a line", '"$0" line p.fn --octets "long octets"', 7, "=== octets\n00a00380\n=== profile\n", "")
    yield Row("a context of 65 MiB", 'truncate -s 68157440 sparse; "$0" pack p.fn --item 8:01 --from-context sparse', 2, "",
              "rohcfn: sparse: it has 68157440 octets, and a file of which a piece is taken has at most 67108864\n", mib=200)


def bounded():
    """Files that are read by the script: numbers, brackets, fields, and captures."""
    yield Row("a chain of powers", '"$0" check powers.fn', 7, "[check][--top][top]", "", 1)
    for name, said in (("powers", None), ("products", "products.fn: the fields of top's header have no constant lengths"), ("digits", "digits.fn: the fields of top's header have no constant lengths"),
                       ("raised", "raised.fn: the fields of top's header have no constant lengths"), ("many", "many.fn: top's header has 30000 bits, and --pcap cuts none of that length")):
        yield Row("%s.fn" % name, '"$0" pack %s.fn --pcap one' % name, 7 if said is None else 2, None, said and "rohcfn: " + said, 2 if name == "many" else 1, lines=200 if said is None else 1)
    yield Row("leading zeros", '"$0" pack hex.fn --pcap one', 7, "64:0000abcd00010007\n", "")
    yield Row("20,000 brackets", '"$0" pack brackets.fn --pcap one', 7, "64:0000abcd00010007", "", 1)
    yield Row("a length in 20,000 brackets", '"$0" pack deep.fn --pcap one', 7, "64:0000abcd00010007\n", "", 1)
    yield Row("an asked field of 10^12 bits", '"$0" pack wide.fn --pcap one', 2, "", "rohcfn: --pcap can't infer msn: it has 1000000000000 bits, and no item says so many\n", 1)
    yield Row("an asked field of less than no bits", '"$0" pack negative.fn --pcap one', 2, "", "rohcfn: --pcap can't infer msn: it has -20 bits, and no item says so many\n", 1)
    yield Row("30,000 fields without bits", '"$0" pack nothing.fn --pcap one', 7, "64:0000abcd00010007\n", "", 2)
    yield Row("a flow of 5,000 digits", '"$0" pack esp.fn --pcap one --flow %s' % ("9" * 5000), 2, "", "rohcfn: one: choose one flow by --flow\nflow 0, 127.0.0.1 to 127.0.0.2, index 0000abcd: 1 headers\n", 1)
    yield Row("a flow of 5,000 zeros", '"$0" pack esp.fn --pcap one --flow %s' % ("0" * 5000), 7, "64:0000abcd00010007\n", "", 1)
    yield Row("--pcap /dev/zero", '"$0" pack esp.fn --pcap /dev/zero', 3, "", "rohcfn: /dev/zero: this is no capture of the format pcap or pcapng\n", 1)
    yield Row("a packet of 4 GiB", '"$0" pack esp.fn --pcap endless', 3, "", "rohcfn: endless: the capture ends inside packet 1\n", 1)
    yield Row("a packet of 3 MiB", '"$0" pack esp.fn --pcap "long packet"', 7, "64:0000abcd00010007\n64:0000abcd00010007\n", "", 1)
    yield Row("500,000 tags", '"$0" pack esp.fn --pcap tags', 2, "", "rohcfn: tags: 1 of 1 packets have no header of esp\nrohcfn: tags: no packet has a header of esp: it has 1 neither ipv4 nor ipv6\n", 1)
    yield Row("600,000 empty packets", '"$0" pack esp.fn --pcap "empty packets"', 2, "", "rohcfn: empty packets: 600000 of 600000 packets have no header of esp\n", 4)
    flows = "rohcfn: flows: choose one flow by --flow\nflow 0, 127.10.0.0 to"
    yield Row("100,000 flows", '"$0" pack esp.fn --pcap flows', 2, "", "\nand more than %d flows\n" % (COUNTED - LISTED), 3, lines=LISTED + 2)
    yield Row("100,000 flows on a line", '"$0" line esp.fn --pcap flows', 2, "", "rohcfn: flows: more than %d flows, and a line has 16\n" % COUNTED, 3, lines=LISTED + 2)
    yield Row("the flow 20,000 of 100,000", '"$0" pack esp.fn --pcap flows --flow 20000', 7, "64:", "", 3)
    for it in ("why", "line"):
        yield Row("250,000 headers of a flow, %s" % it, '"$0" %s esp.fn --pcap "same flow"' % it, 2, "", "rohcfn: same flow: the headers make more than 4 MiB, about ", 4, 100)
    yield Row("250,000 headers of a flow, in pieces", '"$0" pack esp.fn --pcap "same flow"', 7, "[pack][--top][top][--context]\n=== items\n64:0000abcd00010007\n", "", 10, 100)


def endless():
    """/dev/zero for each file, to the built program."""
    for name, call, status in (("PROFILE", "check /dev/zero", 1), ("--items", "pack p.fn --items /dev/zero", 1), ("--packets", "why p.fn --packets /dev/zero", 2), ("--packets of unpack", "unpack p.fn --packets /dev/zero", 1), ("--packets of fields", "fields p.fn --packets /dev/zero", 1), ("--events", "line p.fn --events /dev/zero", 1),
                               ("--octets", "line p.fn --octets /dev/zero", 2), ("--certificate", "check p.fn --certificate /dev/zero", 1), ("--from-context", "pack p.fn --item 24:014007 --from-context /dev/zero", 2)):
        printed = "bundle: I6 above 4 MiB\n" if status == 1 else ""
        yield Row("/dev/zero as %s" % name, '"$0" ' + call, status, printed, "" if printed else "rohcfn: /dev/zero: it has more octets, and", 2, 220, 1)
        given = call.replace("/dev/zero", "-")
        yield Row("/dev/zero as %s, on standard input" % name, '"$0" %s </dev/zero' % given, status, printed, "" if printed else "rohcfn: -: it has more octets, and", 2, 220, 1)
    yield Row("items of 4 MiB", '"$0" advise p.fn --items "long items"', 1, "bundle: I6 above 4 MiB\n", "")
    too_long = '{"kind":"fault","part":"bundle","line":null,"column":null,"number":null,"code":"I6","text":"above 4 MiB"}\n'
    yield Row("items of 4 MiB, as objects", '"$0" advise p.fn --items "long items" --json', 1, too_long, "")
    yield Row("/dev/zero as PROFILE, as objects", '"$0" fields /dev/zero --items "long items" --json', 1, too_long, "", 4, 220, 1)
    yield Row("items of 4 MiB, in pieces", '"$0" pack p.fn --items "long items" | tail -n 1', 0, "5:38\n", "")
    for name in ("powers", "products", "raised", "digits"):
        yield Row("%s.fn" % name, '"$0" check %s.fn' % name, 1, "profile:", "", 1, lines=1)
    for name in ("quotes", "open", "constants", "comments", "names", "numbers", "marks", "lines", "unknown"):
        yield Row("a text of 1 MB: %s.fn" % name, '"$0" check %s.fn' % name, 1, "profile:", "", 2, 200, 1)
        yield Row("a text of 1 MB, --diagnose: %s.fn" % name, '"$0" check %s.fn --diagnose' % name, 1, "profile:", None, 2, 300, 12)
        yield Row("a text of 1 MB, report: %s.fn" % name, '"$0" report %s.fn -o %s.html && head -c 15 %s.html' % (name, name, name), 0, "<!DOCTYPE html>", "", 3, 300)
    for given in ("report /dev/zero", 'report p.fn --items "long items"'):
        yield Row("4 MiB, %s" % given, '"$0" %s -o page' % given, 1, "", "rohcfn: no page is made: bundle: I6 above 4 MiB\n", 2, 220)


CALLS = {
    "files": '"$0" pack p.fn --item 24:014007', "refused": '"$0" pack p.fn --item 24:024007', "usage": '"$0" pack p.fn', "own usage": '"$0" pack --tip',
    "no command": '"$0" fly', "help": '"$0" --help', "version": '"$0" --version',
    "report": '"$0" report p.fn -o -', "no file": '"$0" pack nowhere --item 24:014007', "bundle": '"$0" <bundle', "diagnosed": '"$0" pack p.fn --item 24:014007 --diagnose', "diagnosed usage": '"$0" show --diagnose',
}
# The status of each of these calls with a stream that is odd.
STREAMS = {
    "": (0, 1, 2, 2, 2, 0, 0, 0, 3, 0, 0, 2),
    "<&-": (0, 1, 2, 2, 2, 0, 0, 0, 3, 0, 0, 2),
    "</": (0, 1, 2, 2, 2, 0, 0, 0, 3, 0, 0, 2),
    ">&-": (3, 3, 2, 2, 2, 0, 3, 3, 3, 3, 3, 2),
    ">/dev/full": (3, 3, 2, 2, 2, 0, 3, 3, 3, 3, 3, 2),
    "2>&-": (0, 1, 3, 3, 3, 3, 0, 0, 3, 0, 0, 3),
    "2>/dev/full": (0, 1, 3, 3, 3, 3, 0, 0, 3, 0, 0, 3),
    "2>/dev/full | cat": (0, 1, 3, 3, 3, 3, 0, 0, 3, 0, 0, 3),
    "2>&- | cat": (0, 1, 3, 3, 3, 3, 0, 0, 3, 0, 0, 3),
    "<&- >&- 2>&-": (3, 3, 3, 3, 3, 3, 3, 3, 3, 3, 3, 3),
}


def streams():
    """Standard streams that are closed, full, or a folder, with the built program."""
    for odd, statuses in STREAMS.items():
        for (name, call), status in zip(CALLS.items(), statuses):
            more = odd[3:] if odd.startswith("<") and name == "bundle" else odd
            yield Row("%s %s" % (name, odd), "set -o pipefail; %s %s" % (call, more), status, lines=300)
    for odd, said in (("<&-", "error: reading the input failed\n"), ("</", "error: reading the input failed\n")):
        yield Row("a bundle %s" % odd, '"$0" show --top probe ' + odd, 3, "", said)
        yield Row("a file that is standard input %s" % odd, '"$0" show - ' + odd, 3, "", "rohcfn: standard input can't be read: it is closed, or a folder\n")
        yield Row("a bundle to be diagnosed %s" % odd, '"$0" show --top probe --diagnose ' + odd, 3, "", "rohcfn: standard input can't be read: it is closed, or a folder\n")
    for word, why in ((".", "Is a directory"), ("nowhere/x", "No such file or directory"), ("p.fn/x", "Not a directory"), ("$(printf %5000s | tr ' ' x)", "File name too long")):
        yield Row("a file %s" % word[:20], '"$0" show "%s"' % word, 3, "", why + "\n")
    yield Row("no memory", '(ulimit -v 60000; exec "$0" pack p.fn --item 8:01 --from-context sparse60)', 3, "", "error: out of memory\n")


def unproved():
    """Where no program stands."""
    yield Row("nothing built", '"$0" <bundle', 0, BUNDLE, "rohcfn: nothing is proved")
    yield Row("nothing built, files", '"$0" show p.fn', 0, "=== profile\n" + PROBE, "rohcfn: nothing is proved")
    yield Row("nothing built, nothing to read", '"$0" <&-', 3, "", "rohcfn: the input can't be read, or there is no room for it in the folder for temporary files\n")
    yield Row("nothing built, a folder to read", '"$0" </', 3, "", "rohcfn: the input can't be read, or there is no room for it in the folder for temporary files\n")
    yield Row("nothing built, nobody listens", '"$0" <bundle 2>&-', 0, BUNDLE, "")
    yield Row("nothing built, standard error full", '"$0" <bundle 2>/dev/full', 0, BUNDLE, "")
    yield Row("nothing built, no folder for temporary files", 'TMPDIR=/nowhere "$0" <bundle', 3, "", "rohcfn: the folder for temporary files can't be written\n")
    yield Row("nothing built, no room", 'trap "" XFSZ; ulimit -f 1; head -c 9000 /dev/zero | "$0"', 3, "", "there is no room for it in the folder for temporary files\n")
    for call, status in (('"$0" fly', 2), ('"$0" pack --tip', 2), ('"$0" show p.fn --tip', 2), ('"$0" --help', 0), ('"$0" pack --help', 0), ('"$0" --version', 0)):
        yield Row("nothing built: %s" % call, call, status, None, None, lines=300)
        for odd in ("2>&-", "2>/dev/full"):
            yield Row("nothing built: %s %s" % (call, odd), "%s %s" % (call, odd), 0 if "version" in call else 3, None, "")
    yield Row("nothing built, a word", "\"$0\" $'%s'" % BIDI, 2, "", "error: '%s' is no command\n" % SHOWN, lines=300)
    yield Row("bin/prove, nobody listens", 'rm -f ../tools/rt.calls; "${0%rohcfn}prove" 2>&-; echo $?; cat ../tools/rt.calls; rm -r ../crates/rohcfn/out', 0, "0\nci\n", "")
    yield Row("bin/prove, standard error full", 'rm -f ../tools/rt.calls; "${0%rohcfn}prove" 2>/dev/full; echo $?; cat ../tools/rt.calls; rm -r ../crates/rohcfn/out', 0, "0\nci\n", "")
    yield Row("the sources are missing", 'mv ../crates/rohcfn ../crates/gone; "$0" <bundle; echo $?; "${0%rohcfn}prove"; echo $?; mv ../crates/gone ../crates/rohcfn', 0, "3\n3\n",
              "rohcfn: the sources of the program aren't here\nprove: the sources of the program aren't here\n")
    yield Row("--as-built", '"$0" --as-built <bundle', 3, "", "rohcfn: no program stands here\n")


def terminal():
    """Names and words with an escape and bidi controls."""
    word = "$'%s'" % BIDI.replace("\x1b", "\\e")
    for name, call, status, said in (
            ("a file that is missing", '"$0" show x%s' % word, 3, "rohcfn: x%s: No such file or directory\n"), ("an argument", '"$0" show p.fn --%s' % word, 2, "error: unexpected argument '--%s' found\n"),
            ("another argument", '"$0" show p.fn %s' % word, 2, "error: unexpected argument '%s' found\n"), ("a number", '"$0" loss p.fn --item 8:01 --lost %s' % word, 2, "error: invalid value '%s' for '--lost <N>'"),
            ("a file with a heading", 'cp heading h%s; "$0" show h%s' % (word, word), 2, "rohcfn: h%s:3: a line"), ("a capture", 'cp two c%s; "$0" pack esp.fn --pcap c%s' % (word, word), 2, "rohcfn: c%s: choose one flow"),
            ("no capture", '"$0" pack esp.fn --pcap %s' % word, 3, "rohcfn: %s: this is no capture"), ("a top", '"$0" pack esp.fn --pcap one --top %s' % word, 2, "rohcfn: esp.fn: the fields of %s's header"),
            ("a file that isn't UTF-8", "\"$0\" show $'\\xff\\xfe'", 3, "rohcfn: \\xff\\xfe: No such file or directory\n")):
        yield Row("shown: %s" % name, call, status, "", said % SHOWN if "%s" in said else said)
    yield Row("shown: the name at a fault", '"$0" show %s --diagnose' % word, 1, "profile:1:8: E10 unexpected token\n", "%s:1:8: E10 unexpected token\n1 | q { } ;;\n" % SHOWN)
    yield Row("shown: the text at a fault", '"$0" show bidi.fn --diagnose', 1, "profile:1:29: E01", "1 | q { UNCOMPRESSED { x [8]; } ???[31m", lines=20)


def ended(words, **how):
    """What is seen of a process that reads nothing."""
    with subprocess.Popen(words, stdin=subprocess.DEVNULL, stdout=subprocess.PIPE, stderr=subprocess.PIPE, start_new_session=True, **how) as running:
        ending = threading.Timer(LONGEST, os.killpg, (running.pid, signal.SIGKILL))
        ending.start()
        with concurrent.futures.ThreadPoolExecutor(max_workers=2) as pool:
            printed, said = pool.map(lambda it: it.read(), (running.stdout, running.stderr))
        ending.cancel()
        _, status, took = os.wait4(running.pid, 0)
        running.returncode = os.waitstatus_to_exitcode(status)
    return Seen(running.returncode, printed.decode(errors="replace"), said.decode(errors="replace"), took.ru_utime + took.ru_stime, took.ru_maxrss / 1024)


def called(place, row):
    """What is seen of the call of a row."""
    return ended(["bash", "-c", row.call, place.command], cwd=place.files, env=place.environment)


def slower():
    """How many times slower than it is reckoned with the processor is now, and 1 where it is faster."""
    return max(1, ended([sys.executable, "-S", "-c", WORK]).seconds / PACE)


def alone(place, row):
    """What is seen of a call while no other one runs, with the seconds that it takes where the processor does WORK in PACE: the least of three."""
    tries = []
    while len(tries) < 3 and not (tries and tries[-1].seconds <= row.seconds):
        before, seen = slower(), called(place, row)
        tries.append(seen._replace(seconds=seen.seconds / min(before, slower())))
    return min(tries, key=lambda it: it.seconds)


def wrong_with(row, seen):
    """What is wrong with what is seen of a row, or None."""
    faults = [] if seen.status == row.status else ["status %d, and not %d" % (seen.status, row.status)]
    for due, it in ((row.printed, seen.printed), (row.said, seen.said)):
        if due is not None and (due not in it if due else it):
            faults.append("%.400r, and not %.200r" % (it, due))
    if "Traceback" in seen.said or "\x1b" in seen.said or "\u202e" in seen.said:
        faults.append("said %.400r" % seen.said)
    if seen.seconds > row.seconds or seen.mib > row.mib:
        faults.append("%.1f seconds and %d MiB, and at most %.1f and %d are due" % (seen.seconds, seen.mib, row.seconds, row.mib))
    if seen.said.count("\n") + (seen.printed.count("\n") if row.lines == 1 else 0) > row.lines:
        faults.append("%d lines" % seen.said.count("\n"))
    return "%s: %s" % (row.name, "; ".join(faults)) if faults else None


def in_terminal(place):
    """What a terminal gets of a word of a bundle, which goes to the program as it is."""
    status, seen = place.on_terminal(sent="=== words\npack --top probe --\u202etip\n\x04".encode())
    yield "a word of a bundle in a terminal", status == 2 and "'--\\u{202e}tip'" in seen and seen.count("\u202e") <= 1, seen


def odd_folder(folder):
    """The program in a folder whose name isn't UTF-8."""
    place = Place(os.path.join(folder, os.fsdecode(b"\xff\xe9")), "a copy", built())
    for call in ('"$0" pack p.fn --item 24:014007', '"$0" <bundle', '"$0" pack p.fn --item 24:014007 --diagnose'):
        (place.files / "p.fn").write_text(PROBE)
        (place.files / "bundle").write_text(BUNDLE)
        yield Row("in a folder that isn't UTF-8: %s" % call, call, 0, "17:a00380\n", ""), place


def places(folder):
    """A copy for each kind of program, with the files: what prints its words, the built program, and none."""
    stored = pathlib.Path(folder) / "files"
    stored.mkdir()
    for name, text in files():
        (stored / name).write_bytes(text if isinstance(text, bytes) else text.encode())
    for name, program in (("told", None), ("built", built()), ("bare", built())):
        place = Place(folder, name, program)
        for it in stored.iterdir():
            os.link(it, place.files / it.name)
        (place.files / "bundle").write_text(BUNDLE)
        with open(place.files / "sparse60", "wb") as sparse:
            sparse.truncate(60 * MIB)
        if name == "bare":
            (place.root / "crates" / "rohcfn" / "out" / "rohcfn").unlink()
            for it in ("crates.txt", "HANDLES"):
                shutil.copy(ROOT / it, place.root)
            (place.root / "tools" / "rt").write_text(RT)
        yield name, place


def main():
    with tempfile.TemporaryDirectory() as folder:
        at = dict(places(folder))
        rows = [(it, at["told"]) for part in (smuggled, bounded) for it in part()]
        rows += [(it, at["built"]) for part in (endless, streams, terminal) for it in part()] + list(odd_folder(folder))
        with concurrent.futures.ThreadPoolExecutor(max_workers=4) as pool:
            seen = list(pool.map(lambda it: called(it[1], it[0]), rows))
        seen = [alone(place, row) if it.seconds > row.seconds else it for (row, place), it in zip(rows, seen)]
        wrong = [wrong_with(row, it) for (row, _), it in zip(rows, seen)]
        wrong += [wrong_with(it, called(at["bare"], it)) for it in unproved()]
        wrong += [None if holds else "%s: %.300r" % (name, seen) for name, holds, seen in in_terminal(at["built"])]
    for it in filter(None, wrong):
        print("hostile: " + it)
    faults = len(list(filter(None, wrong)))
    print("hostile: %d passed, %d failed" % (len(wrong) - faults, faults))
    return 1 if faults else 0


if __name__ == "__main__":
    sys.exit(main())
