"""Through built programs: worked rows in which memory is refused, each growth in turn.

A library that is loaded before a program stands in for malloc and realloc. A row runs once, and nothing is refused to that run; at each growth a copy of the process
goes on to which it is, so that what stands before it isn't done again for each. In the rows of `rohcfn` a growth is refused alone, and with all that come after it:
the run must end with status 3, say that memory is out, and have printed no more than a front of the row's output. The rows of crates/rows_refusals/stdin make one
call each; a growth is refused alone, in the call or before it. Before it the run must end with status 3; in it, the call must leave what it was given as it was
and give the right answer when it is made again, or say again that memory is out where it is a receiver's. At last no growth is left to refuse, and the row's
own output must come.

Where a usage fault has a suggestion ("a similar subcommand exists"), the growths in which the library for the command line looks for one are hints, which are tried
again: such a run may end as ever, with the whole text. These are counted apart. No other row may end as ever where a growth is refused.

A drawing (walk_guess) can't answer want of memory: where a growth is refused to it alone, the walk answers, and the row's own output must come. Each level that is
drawn up grows one list, that of its fields, and nothing else in the rows of `rohcfn`. So each of these says how many levels are drawn up for it, and just so many
growths may end so. On a line there are those of the list of kept pages, too: where one is refused, no page of that flow is kept, and its next packet goes without
it. A page (walk_pages) is no drawing: it answers that memory is out. In the rows of calls that draw, two growths in a row are refused as well: that of
a drawing and the first one of the walk after it. Senders draw up the first packet of a flow alone, which stands before the call of their rows. The call writes a
page, so the second growth would be that of the call which is made again: there no two are refused."""
import concurrent.futures
import json
import os
import pathlib
import shutil
import struct
import subprocess
import sys
import tempfile

from . import cases
from .program import CRATES, EXAMPLES, built, bundle, memory, octets_of
from .reference.built import PLAIN
from .reference.samples import CERTIFICATES, MODE, OPT, SEQ, TICK, TURN

ALL = 1 << 62
DRAWING = ("robust ", "pack", "unpack", "send", "reset", "feed")
WRITING = ("send", "reset")
AGAIN = "refused, as before, then right\n"
REPEATED = "refused, items kept, refused again\n"

LIBRARY = r"""
typedef unsigned long size;
extern void *__libc_malloc(size);
extern void *__libc_realloc(void *, size);
extern char *getenv(const char *);
extern long write(int, const void *, size);
extern long lseek64(int, long, int);
extern int *__errno_location(void);
extern long sendfile(int, int, long *, size);
extern int ftruncate(int, long);
extern int fork(void);
extern int waitpid(int, int *, int);

enum { FOUND = 3 };
static long growths, refused, first, last, count;
static int is_copy;

static long number(const char *digits) {
  long value = 0;
  while (digits && *digits >= '0' && *digits <= '9') value = value * 10 + (*digits++ - '0');
  return value;
}

static long here(int stream) { return lseek64(stream, 0, 1); }

/* To the program its input is a pipe, as it mostly is: it can't be asked for its length, which would save growths. */
long lseek(int stream, long by, int from) {
  *__errno_location() = 29;
  return -1;
}

/* How the copy ended, and what it and the program so far have written, goes to FOUND; the streams are left as they were before the copy. */
static void note(int copy, long read, const long *written) {
  long record[3], start;
  int status = 0, stream;
  waitpid(copy, &status, 0);
  record[0] = status;
  for (stream = 1; stream < 3; stream++) record[stream] = here(stream);
  write(FOUND, record, sizeof record);
  for (stream = 1; stream < 3; stream++) {
    start = 0;
    if (record[stream] > 0) sendfile(FOUND, stream, &start, record[stream]);
    ftruncate(stream, written[stream]);
    lseek64(stream, written[stream], 0);
  }
  lseek64(0, read, 0);
}

/* At each growth of the program, to which none is refused, a copy of it goes on to which that one is, and so many in all. */
static int is_refused(void) {
  if (growths++ == 0) count = number(getenv("REFUSED"));
  if (!is_copy) {
    long read = here(0), written[3] = {0, here(1), here(2)};
    int copy = fork();
    if (copy != 0) {
      note(copy, read, written);
      return 0;
    }
    is_copy = 1;
    first = growths;
    last = first - 1 + count;
  }
  if (growths < first || growths > last) return 0;
  refused++;
  return 1;
}

void *malloc(size octets) { return is_refused() ? 0 : __libc_malloc(octets); }

void *realloc(void *old, size octets) { return is_refused() ? 0 : __libc_realloc(old, octets); }

__attribute__((destructor)) static void tell(void) {
  if (refused) write(2, "refused\n", 8);
  else write(2, "whole\n", 6);
}
"""
RECORD = struct.Struct("@3q")  # of a copy: its status as the system has it, and how many octets it wrote to both streams


def compilers():
    """Commands that may compile C: that of the kit, then those of the system."""
    found = shutil.which("rt")
    if found:
        tools = pathlib.Path(found).resolve().parent.parent / "toolchain" / "bin"
        yield [tools / "clang", "--target=x86_64-unknown-linux-gnu", "-fuse-ld=lld", "-B", tools]
    for name in ("cc", "gcc", "clang"):
        if shutil.which(name):
            yield [name]


def build(library):
    """Whether some compiler made the library."""
    flags = ["-O1", "-fPIC", "-shared", "-nostdlib", "-ffreestanding", "-x", "c", "-", "-o", library]
    for compiler in compilers():
        try:
            if subprocess.run([*compiler, *flags], input=LIBRARY.encode(), stderr=subprocess.DEVNULL, check=False).returncode == 0:
                return True
        except OSError:
            pass
    return False


def rows():
    """Name, bundle, output and status of each row, and how many growths are refused to what answers without them, which is how many levels are drawn up for it but on a
    line (of_flows); all this was written by hand. A candidate is drawn up level by level up to where it leads nowhere; of `tick` that is the first one, but in an
    empty context, and then the last where the first isn't the item."""
    yield "plain packed", bundle("pack --top plain", PLAIN.decode(), items="16:5abc\n"), "18:96af00\n", 0, 1
    yield "a bad part", "=== %s\n" % ("\x1b" * 90), "bundle: I4 bad part %s..\n" % ("\\u{1b}" * 80), 1, 0
    yield from of_tick()
    yield from of_opt()
    yield from lost()
    yield from of_seq()
    yield from of_flows()
    yield from of_version_2()
    yield from of_surveys()
    yield from explained()
    yield from named()
    yield from messages()
    yield from figures()


def of_tick():
    """Rows of `tick`."""
    tick, exchanged = CERTIFICATES["tick"], CERTIFICATES["tick"].replace("leaf short\nleaf full", "leaf full\nleaf short")
    parts = {"context": "sn 8:00\n", "items": "8:01\n"}
    yield "tick packed", bundle("pack --top tick", TICK, **parts), "8:0b\n", 0, 1
    yield "tick packed by a certificate", bundle("pack --top tick", TICK, certificate=tick, **parts), "8:0b\n", 0, 1
    yield "tick proved", bundle("prove --top tick", TICK), tick, 0, 0
    yield "tick shown", bundle("show --top tick", TICK), (EXAMPLES / "tick-show.expected").read_text(), 0, 0
    yield "tick checked", bundle("check --top tick", TICK, certificate=tick), "accepted\n", 0, 0
    yield "tick with its leaves exchanged", bundle("check --top tick", TICK, certificate=exchanged), "check: V4 tick node 1 short\n", 1, 0
    counted = "items 1 bits 9 mean 9.0\n  format  items  bits  mean\n  short   0      0     -\n  full    1      9     9.0\n    d     1      1     1.0\n    sn    1      8     8.0\n"
    yield "tick counted", bundle("stats --top tick", TICK, items="8:01\n9:0000\n"), counted + "item 2: F3 NoFormat\n", 0, 3
    yield "tick packed for a loss", bundle("pack --robust 1 --top tick", TICK, items="8:01\n8:02\n"), "9:8080\n9:8100\n", 0, 2


def of_opt():
    """Rows of `opt`."""
    parts = {"context": "ttl.field 8:40\n", "items": "8:40\n8:41\n"}
    packets = "1:00\n9:a080\n=== context\nttl.field 8:41\nttl 8:41\n"
    yield "opt packed", bundle("pack --top opt --context", OPT, **parts), packets, 0, 4
    yield "opt packed by a certificate", bundle("pack --top opt --context", OPT, certificate=CERTIFICATES["opt"], **parts), packets, 0, 4
    told = "packet 1 - 1 bits\n  ttl      header  8:40  0:    static_or_irreg.static_enc\n"
    told += "    field  header  8:40  0:    static\n  flag     local   1:00  1:00  irregular\n"
    yield "opt told", bundle("fields --top opt", OPT, context="ttl.field 8:40\n", packets="1:00\n"), told, 0, 2


def of_seq():
    """Rows of `seq`, whose items ask for a value."""
    yield "seq packed", bundle("pack --top seq", SEQ, items="8:06 msn=8:03\n"), "4:30\n", 0, 1
    yield "seq unpacked", bundle("unpack --top seq", SEQ, packets="4:30\n"), "8:06 msn=8:03 took 4\n", 0, 1
    yield "seq without what is asked", bundle("pack --top seq", SEQ, items="8:06\n"), "item 1: F2 Asked msn\n", 1, 0
    yield "seq without a filling", bundle("pack --top seq", SEQ, items="8:07 msn=8:03\n"), "item 1: F3 NoFormat\n", 1, 1


def of_flows():
    """Rows of lines of flows. Both ends draw up the first packet of a flow, whose context is empty, and a receiver one that is refused; another one goes by a page.
    Senders of frames draw up each. An end of a line that isn't of frames has a list of the flows' last pages, up to the greatest flow that was heard of. It has room for
    4, and then for 8, 16, 32 and 64: so it grows once where no flow is above 3, and five times where one is above 31."""
    events, items = "send 0 8:01\nsend 1 8:01\nsend 0 8:02\n", "0 8:01\n1 8:01\n0 8:02\n"
    yield "two flows", bundle("line --top tick", TICK, events=events), "0080800180800014\n" + items, 0, 2 + 1
    yield "two flows received", bundle("line --receive --top tick", TICK, octets="0080800180800014\n"), items, 0, 2 + 1
    yield "a flow that is reset", bundle("line --top tick", TICK, events="send 0 8:01\nreset 0\nsend 0 8:01\n"), "00808010008080\n0 8:01\n0 8:01\n", 0, 2 + 1
    events, items = "send 40 8:01\nreset 40\nsend 63 8:01\n", "40 8:01\n63 8:01\n"
    yield "two flows of 64", bundle("line --wide --top tick", TICK, events=events), "288080683f8080\n" + items, 0, 2 + 5
    yield "two flows of 64 received", bundle("line --wide --receive --top tick", TICK, octets="288080683f8080\n"), items, 0, 2 + 5
    yield "frames", bundle("line --frames --top tick", TICK, events="send 0 8:01\nsend 1 8:01\nsend 0 8:02\n"), "0002808001028080000114\n0 8:01\n1 8:01\n0 8:02\n", 0, 3
    yield "frames received", bundle("line --frames --receive --top tick", TICK, octets="0002808001020000000114\n"), "0 8:01\n1 refused U2 Refused tick.short\n0 8:02\n", 0, 2
    yield "frames for a loss", bundle("line --frames --robust 1 --top tick", TICK, events="send 0 8:01\nreset 0\nsend 0 8:02\n"), "000280808000028100\n0 8:01\n0 8:02\n", 0, 3


def of_version_2():
    """Rows of version 2."""
    yield "mode packed in version 2", bundle("pack --top mode --v2", MODE, items="8:05\n"), "8:05\n", 0, 1
    yield "turn packed in version 2", bundle("pack --top turn --v2", TURN, items="4:30\n"), "4:80\n", 0, 1
    yield "mode proved in version 2", bundle("prove --top mode --v2", MODE), CERTIFICATES["mode"], 0, 0


def lost():
    """Rows of `loss`: all is right, and a packet is wrong. Three levels are drawn up for the three items that are packed. A packet is read, and drawn up, only where a
    reference doesn't serve."""
    heads = "  lost  packets  right  refused  wrong\n"
    told = "items 3 bits 25 mean 8.3\n" + heads + "  0     3        3      0        0\n  1     1        1      0        0\n"
    told += "  format  packets  right  refused  wrong  reach\n  short   1        1      0        0      1\n"
    yield "tick after a loss", bundle("loss --lost 1 --top tick", TICK, items="8:01\n8:02\n8:03\n"), told, 0, 3
    bare = "bare { UNCOMPRESSED { sn [8]; } COMPRESSED near { d =:= '0' [1]; sn =:= lsb(2, 0) [2]; } COMPRESSED full { d =:= '1' [1]; sn =:= irregular(8) [8]; } }\n"
    told = "items 3 bits 15 mean 5.0\n" + heads + "  0     3        3      0        0\n  1     1        0      0        1\n"
    told += "  format  packets  right  refused  wrong  reach\n  near    1        0      0        1      0\n"
    told += "lost 1 item 3 near wrong\n  sn lsb(2, 0) has 8:01 needs 8:06: step 5, takes 0 to 3\n"
    yield "a wrong reading after a loss", bundle("loss --lost 1 --top bare", bare, items="8:01\n8:03\n8:06\n"), told, 0, 4


def of_surveys():
    """Rows of `lint` and of `draw`, in which nothing is drawn up, and of `why`."""
    yield "tick linted", bundle("lint --top tick", TICK), "", 0, 0
    clean = "top { UNCOMPRESSED { sn [8]; } COMPRESSED one { sn =:= lsb(4, 1) [4]; } }\n"
    needs = "1:1: warning top.one is never used: it needs sn in the context, which no format that can come before puts there\n"
    unnoticed = "1:1: warning top.one: a wrong reference is not noticed\n"
    unknown = "context: warning sm: no format has a field there\n"
    yield "a format that waits linted", bundle("lint --top top", clean), needs + unnoticed, 0, 0
    yield "lint with a context", bundle("lint --top top", clean, context="sn 8:00\n"), unnoticed, 0, 0
    yield "lint with a path that no format has", bundle("lint --top top", clean, context="sm 8:00\n"), needs + unnoticed + unknown, 0, 0
    yield "lint with a bad context", bundle("lint --top top", clean, context="sn 8:00\nsn\n"), "context:2: C1 bad line\n", 1, 0
    misspelled = "top { UNCOMPRESSED { addr [8]; } COMPRESSED { adr =:= irregular(17) [16]; addr =:= irregular(8) [8]; } }\n"
    dead = "1:69: warning top.-: adr has at least 17 and at most 16 bits compressed: nothing fits this format\n"
    yield "a format that is dead linted", bundle("lint --top top", misspelled), dead + "1:1: warning top.-: adr is listed here alone, and addr is a field of the header: is it meant?\n", 0, 0
    crowded = "top { UNCOMPRESSED { x [8]; } COMPRESSED { w =:= irregular(16) [16]; v =:= irregular(1) [1]; x =:= irregular(8) [8]; } }\n"
    counts = "1:1: warning top: 131072 candidates an item, and the limit is 65536\n1:1: warning top.-: 131072 candidates = w 65536 x v 2\n"
    yield "too many candidates linted", bundle("lint --top top", crowded), counts, 0, 0
    waits = "top { UNCOMPRESSED { sn [8]; } COMPRESSED near { d =:= '0' [1]; sn =:= lsb(4, 1) [4]; } COMPRESSED same { d =:= '1' [1]; sn =:= static [0]; } }\n"
    lacks = "item 1: F3 NoFormat\n1:82: top.near: lsb of sn: the context has no entry sn, and INITIAL gives none\n"
    lacks += "1:136: top.same: static of sn: the context has no entry sn, and INITIAL gives none\n"
    yield "why nothing is packed", bundle("why --top top --items", waits, items="8:05\n"), lacks, 0, 1
    yield "tick drawn", bundle("draw --top tick", TICK), (EXAMPLES / "tick-draw.expected").read_text(), 0, 0


def explained():
    """Rows of `prove` and `check` with --explain."""
    lost = "lost { UNCOMPRESSED { x [8]; } COMPRESSED { d =:= '1' [1]; } }\n"
    yield "no plan explained", bundle("prove --explain --top lost", lost), "prove: P1 NoPlan lost - read x U\n1:1: no step gives the uncompressed bits of x\n", 1, 0
    yield "no plan explained by check", bundle("check --explain --top lost", lost), "prove: P1 NoPlan lost - read x U\n1:1: no step gives the uncompressed bits of x\n", 1, 0
    amb = "amb { UNCOMPRESSED { x [8]; } COMPRESSED a { d =:= '0' [1]; x =:= irregular(8) [8]; } COMPRESSED b { x =:= irregular(8) [8]; d =:= '11' [2]; } }\n"
    begins = "prove: P2 NoTree amb a b\n1:1: a begins with 0........., b with ........11; a point is a bit that is not known\n"
    begins += "1:1: this is no proof that a packet has two readings: only that no bit%s parts the two\n"
    yield "no tree explained", bundle("prove --explain --top amb", amb), begins % " and no parameter", 1, 0
    yield "no tree explained in version 2", bundle("prove --explain --v2 --top amb", amb), begins % ", no parameter and no reference", 1, 0
    exchanged = CERTIFICATES["tick"].replace("leaf short\nleaf full", "leaf full\nleaf short")
    yield "a leaf explained", bundle("check --explain --top tick", TICK, certificate=exchanged), "check: V4 tick node 1 short\n1:1: in tick.short\ncertificate:4: here\n", 1, 0
    crowded = "top { UNCOMPRESSED { x [8]; } COMPRESSED co { w =:= irregular(16) [16]; v =:= irregular(1) [1]; x =:= irregular(8) [8]; } }\n"
    counts = "check: V6 candidates\n1:1: top has 131072 candidates, and 65536 is the limit\n1:1: most are of co: 131072 = w 65536 x v 2\n"
    yield "candidates explained", bundle("check --explain --top top", crowded), counts, 1, 0
    yield "tick accepted with nothing to explain", bundle("check --explain --top tick", TICK), "accepted\n", 0, 0


def named():
    """Of each code from E20 to E34 the shortest stored case."""
    for code in range(20, 35):
        stored = [it for it in cases.stored(EXAMPLES / "cases" / ("E%d.cases" % code)) if b": E%d " % code in it[3]]
        _, given, status, output = min(stored, key=lambda it: len(it[1]))
        yield "E%d" % code, given.decode(), output.decode(), status, 0


def written(*found):
    """Objects as lines."""
    return "".join(json.dumps(it, separators=(",", ":")) + "\n" for it in found)


def fault(number):
    """The object of an item that no format has."""
    return {"kind": "fault", "part": "item", "line": None, "column": None, "number": number, "code": "F3", "text": "NoFormat"}


def messages():
    """Rows of commands that tell messages, with --json."""
    exchanged = CERTIFICATES["tick"].replace("leaf short\nleaf full", "leaf full\nleaf short")
    yield "tick accepted as an object", bundle("check --json --top tick", TICK), written({"kind": "accepted"}), 0, 0
    refused = {"kind": "fault", "part": "check", "line": None, "column": None, "number": None, "code": "V4", "text": "tick node 1 short"}
    notes = [{"kind": "note", "part": part, "line": line, "column": column, "text": text} for part, line, column, text in (("profile", 1, 1, "in tick.short"), ("certificate", 4, None, "here"))]
    yield "a leaf explained as objects", bundle("check --explain --json --top tick", TICK, certificate=exchanged), written(refused, *notes), 1, 0
    proved = {"kind": "certificate", "version": 1, "lines": CERTIFICATES["tick"].splitlines()}
    yield "tick proved as an object", bundle("prove --json --top tick", TICK), written(proved), 0, 0
    clean = "top { UNCOMPRESSED { sn [8]; } COMPRESSED one { sn =:= lsb(4, 1) [4]; } }\n"
    warned = {"kind": "warning", "part": "profile", "line": 1, "column": 1, "subject": "top.one", "text": "a wrong reference is not noticed"}
    yield "lint as an object", bundle("lint --json --top top", clean, context="sn 8:00\n"), written(warned), 0, 0
    waits = "top { UNCOMPRESSED { sn [8]; } COMPRESSED near { d =:= '0' [1]; sn =:= lsb(4, 1) [4]; } COMPRESSED same { d =:= '1' [1]; sn =:= static [0]; } }\n"
    lacks = [{"kind": "reason", "line": 1, "column": column, "depth": 0, "subject": subject, "text": "%s of sn: the context has no entry sn, and INITIAL gives none" % encoding}
             for column, subject, encoding in ((82, "top.near", "lsb"), (136, "top.same", "static"))]
    yield "why as objects", bundle("why --json --top top --items", waits, items="8:05\n"), written(fault(1), *lacks), 0, 1


def side(bits, octets=""):
    return {"bits": bits, "hex": octets}


def figures():
    """Rows of commands that tell figures, with --json."""
    counted = [("format", 0, "short", 0, 0, None), ("format", 0, "full", 1, 9, 9.0), ("field", 1, "d", 1, 1, 1.0), ("field", 1, "sn", 1, 8, 8.0)]
    rows = [dict(zip(("kind", "depth", "name", "items", "bits", "mean"), it)) for it in counted]
    yield "tick counted as objects", bundle("stats --json --top tick", TICK, items="8:01\n9:0000\n"), written({"kind": "all", "items": 1, "bits": 9, "mean": 9.0}, *rows, fault(2)), 0, 3
    bare = "bare { UNCOMPRESSED { sn [8]; } COMPRESSED near { d =:= '0' [1]; sn =:= lsb(2, 0) [2]; } COMPRESSED full { d =:= '1' [1]; sn =:= irregular(8) [8]; } }\n"
    use = {"path": "sn", "method": "lsb", "k": 2, "offset": 0, "has": side(8, "01"), "needs": side(8, "06"), "step": 5, "from": 0, "to": 3}
    told = [{"kind": "all", "items": 3, "bits": 15, "mean": 5.0}, {"kind": "lost", "lost": 0, "packets": 3, "right": 3, "refused": 0, "wrong": 0},
            {"kind": "lost", "lost": 1, "packets": 1, "right": 0, "refused": 0, "wrong": 1}, {"kind": "format", "format": "near", "packets": 1, "right": 0, "refused": 0, "wrong": 1, "reach": 0},
            {"kind": "case", "lost": 1, "item": 3, "format": "near", "heard": "wrong", "code": None, "method": None, "at": None, "uses": [use]}]
    yield "a wrong reading as objects", bundle("loss --json --lost 1 --top bare", bare, items="8:01\n8:03\n8:06\n"), written(*told), 0, 4
    keys = ("depth", "name", "part", "uncompressed", "compressed", "method", "format")
    fields = [(0, "ttl", "header", side(8, "40"), side(0), "static_or_irreg", "static_enc"), (1, "field", "header", side(8, "40"), side(0), "static", None), (0, "flag", "local", side(1, "00"), side(1, "00"), "irregular", None)]
    packet = {"kind": "packet", "number": 1, "format": "-", "bits": 1, "fields": [dict(zip(keys, it)) for it in fields]}
    yield "opt told as objects", bundle("fields --json --top opt", OPT, context="ttl.field 8:40\n", packets="1:00\n"), written(packet), 0, 2
    context = {"kind": "context", "entries": [{"path": path, "bits": side(8, "40")} for path in ("ttl.field", "ttl")]}
    yield "opt and its context as objects", bundle("fields --json --context --top opt", OPT, context="ttl.field 8:40\n", packets="1:00\n"), written(packet, context), 0, 2
    keys = ("field", "calls", "offset_least", "offset_most", "bits_least", "bits_most", "constant")
    drawn = {"short": [("d", None, 0, 0, 1, 1, "0"), ("sn", None, 1, 1, 4, 4, None), ("c", None, 5, 5, 3, 3, None)], "full": [("d", None, 0, 0, 1, 1, "1"), ("sn", None, 1, 1, 8, 8, None)]}
    shown = [{"kind": "diagram", "method": "tick", "format": form, "least": bits, "most": bits, "columns": [dict(zip(keys, it)) for it in drawn[form]]} for form, bits in (("short", 8), ("full", 9))]
    yield "tick drawn as objects", bundle("draw --json --top tick", TICK), written(*shown), 0, 0
    near = {"kind": "near", "field": "sn", "lost": 0, **dict.fromkeys(("p90", "p99", "p100"), {"k": 1, "offset": -1})}
    trend = {"kind": "field", "field": "sn", "part": "header", "least": 8, "most": 8, "goes": "steps", "values": [], "as_before": None, "steps": {"least": 1, "most": 2, "frequent": 1, "share": 66}, "without": 0}
    own = {"kind": "own", "field": "sn", "format": "short", "k": 4, "offset": 1, "share_0": 100, "share_lost": 100}
    advised = written({"kind": "all", "items": 4, "lost": 0}, trend, near, own)
    yield "tick advised as objects", bundle("advise --json --lost 0 --top tick", TICK, items="8:01\n8:02\n8:03\n8:05\n"), advised, 0, 4


def usages():
    """Rows of words that ask for nothing or for help: the words, the part `words` where there are none, what their text says, the status, and whether it suggests a word."""
    yield "no top", ["pack"], "", "Usage: rohcfn pack --top <NAME>", 2, False
    yield "a version of show", ["show", "--top", "plain", "--v2"], "", "'--v2'", 2, True
    yield "a command that is misspelled", ["pakc", "--top", "plain"], "", "'pakc'", 2, True
    yield "a flag that is misspelled in a bundle", [], "=== words\npack --tip plain\n", "'--tip'", 2, True
    yield "no top in a bundle", [], "=== words\npack\n", "Usage: rohcfn pack --top <NAME>", 2, False
    yield "a number that is none", ["loss", "--top", "plain", "--lost", "64"], "", "'64' for '--lost <N>': a number from 0 to 63 is needed", 2, False
    yield "a number of a bundle that is none", [], "=== words\nloss --top plain --lost=01\n", "'01'", 2, False
    yield "help", ["--help"], "", "Usage: rohcfn", 0, False
    yield "help of a command", ["lint", "--help"], "", "Usage: rohcfn lint", 0, False


class Row:
    """A row that a program runs with the library, which refuses growths, and what is printed where they are refused to its call. How many growths it ends without is known,
    or None where it isn't. A row of words has a text for the person who called, of which a part is known, and which may suggest a word."""

    def __init__(self, library, program, text, output, status=0, drawn=0, refused=None, words=(), part="", suggests=False):
        self.library, self.program, self.text = library, built(program), text.encode()
        self.output, self.status, self.drawn, self.refused = output.encode(), status, drawn, refused and refused.encode()
        self.words, self.part, self.suggests, self.said = words, part.encode(), suggests, b""

    def runs(self, count):
        """How the row ends where none is refused, and then where so many growths are, from each in turn on: the status, what is printed and what is said."""
        with memory(self.text) as given, memory() as printed, memory() as said, memory() as found:
            streams = [(os.POSIX_SPAWN_DUP2, number, place) for place, number in enumerate((given, printed, said, found))]
            environment = {"LD_PRELOAD": self.library, "REFUSED": str(count)}
            _, status = os.waitpid(os.posix_spawn(self.program, [self.program, *self.words], environment, file_actions=streams), 0)
            yield os.waitstatus_to_exitcode(status), octets_of(printed), octets_of(said)
            rest = octets_of(found)
        while rest:
            status, printed, said = RECORD.unpack_from(rest)
            octets, rest = rest[RECORD.size:RECORD.size + printed + said], rest[RECORD.size + printed + said:]
            yield os.waitstatus_to_exitcode(status), octets[:printed], octets[printed:]

    def end(self, run, count):
        """How a run ended in which growths are refused from that place on: `out` of memory; refused to the row's `call`; as ever, where those are refused of what is `drawn`,
        or one of those that look for a word that is `suggested`; `wrong`."""
        status, printed, said = run
        if status == 3 and said == b"error: out of memory\nrefused\n" and self.output.startswith(printed):
            return "out"
        ends = {(0, self.refused, b"refused\n"): "call"}
        if self.drawn != 0 and count < 3:
            ends[(self.status, self.output, b"refused\n")] = "drawn"
        if self.suggests and count == 1:
            ends[(self.status, self.output, self.said + b"refused\n")] = "suggested"
        return ends.get(run, "wrong")

    def ends(self, count):
        """How each run ended, growth by growth, where so many are refused from that one on."""
        whole, *refused = self.runs(count)
        if self.part:
            self.said = whole[2].removesuffix(b"whole\n")
        if whole != (self.status, self.output, self.said + b"whole\n") or self.part not in self.said:
            return ["wrong"]
        return [self.end(it, count) for it in refused]

    def dues(self, count):
        """The ends of which one must be among those of the runs."""
        if not self.refused:
            return {"out"}
        return {"call", "drawn"} if self.drawn != 0 and count == 1 else {"call"}


def sweep(name, row, count):
    """How many runs of the row ended as they may, and how many not; where the row is a call, some growth must be refused to it."""
    ends = row.ends(count)
    for place, end in enumerate(ends, 1):
        if end == "wrong":
            print("%s: wrong where growth %d is refused %s" % (name, place, {1: "alone", 2: "with the next"}.get(count, "with all after it")))
    lacks = not row.dues(count) & set(ends)
    if lacks:
        print("%s: no growth is refused %s" % (name, "to the call" if row.refused else "at all"))
    drawn = ends.count("drawn")
    differs = count == 1 and row.drawn is not None and drawn != row.drawn
    if differs:
        print("%s: %d growths were refused to drawings and to kept pages" % (name, drawn))
    wrong = ends.count("wrong") + lacks + differs
    return len(ends) - ends.count("wrong"), wrong, ends.count("call"), drawn, ends.count("suggested")


def jobs(library):
    """What is swept: rows of the program in both ways, and calls."""
    for name, text, output, status, drawn in rows():
        for count in (1, ALL):
            yield name, Row(library, "rohcfn", text, output, status, drawn), count
    for name, words, text, part, status, suggests in usages():
        for count in (1, ALL):
            yield name, Row(library, "rohcfn", text, "", status, words=words, part=part, suggests=suggests), count
    for call in (CRATES / "rows_refusals" / "stdin").read_text().splitlines():
        if call and not call.startswith("#"):
            refused = REPEATED if call.startswith("feed ") else AGAIN
            drawn = None if call.startswith(DRAWING) else 0
            for count in (1, 2) if drawn is None and not call.startswith(WRITING) else (1,):
                yield call, Row(library, "rows_refusals", call + "\n", "right\n", 0, drawn, refused), count


def main():
    with tempfile.TemporaryDirectory() as folder:
        library = os.path.join(folder, "refuse.so")
        if not build(library):
            print("refusals: no compiler makes the library that refuses growths, neither the kit's nor the system's")
            return 1
        with concurrent.futures.ProcessPoolExecutor() as pool:
            passed, failed, called, drawn, suggested = map(sum, zip(*pool.map(sweep, *zip(*jobs(library)))))
    print("refusals: %d passed, %d failed; %d growths were refused to calls of rows, %d to drawings and kept pages, %d to suggestions" % (passed, failed, called, drawn, suggested))
    return 1 if failed or not passed else 0


if __name__ == "__main__":
    sys.exit(main())
