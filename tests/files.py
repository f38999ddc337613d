"""Tries bin/rohcfn with files, in a copy with a program that prints its words and its input: the bundles, captures that are written here from data/, help,
usage faults, and where the grammar stops. The worked inputs go through the built program by files, captures there and back, and the calls of
docs/USAGE.md; and what is shown of a fault is compared with diagnosed.cases.

What is due follows from the worked inputs, the cases, headers.py and the pages; nothing is taken from the program."""
import concurrent.futures
import contextlib
import os
import pathlib
import pty
import re
import select
import shutil
import struct
import subprocess
import sys
import tempfile

from examples import headers
from front import commands, diagnosis, grammar
from . import cases
from .counting import Checks
from .program import EXAMPLES, ROOT, built

TOLD = '#!/bin/sh\nprintf "[%s]" "$@"\necho\ncat\nexit 7\n'
PARTS = {"items": "--items", "packets": "--packets", "events": "--events", "octets": "--octets", "context": "--from-context", "certificate": "--certificate"}
PROFILE = "one(a, b) { }\nK = 2 * (3 + 1); // last { }\n/* four { */ two { UNCOMPRESSED { x [8]; } }"
FILES = {
    "a profile.fn": PROFILE,
    "items": "8:01",
    "context": "x 8:07\n",
    "certificate": "rohcfn-certificate 1\nend\n",
    "packed": "8:10\n8:11\n=== context\nx 8:02\n",
    "sent": "0080\n0 8:01\n12 8:02 y=1:80\n",
    "octets": "00\n80\n",
    "events": "reset 0",
}

check = Checks("front")


class Place:
    """A copy of bin/, front/ and docs/ with a program, and a folder with a blank in its name for files."""

    def __init__(self, folder, name, program):
        self.root = pathlib.Path(folder) / name
        for it in ("bin", "front", "docs"):
            shutil.copytree(ROOT / it, self.root / it, ignore=shutil.ignore_patterns("__pycache__"))
        out = self.root / "crates" / "rohcfn" / "out"
        out.mkdir(parents=True)
        if program is None:
            (out / "rohcfn").write_text(TOLD)
            (out / "rohcfn").chmod(0o755)
        else:
            (out / "rohcfn").symlink_to(pathlib.Path(program).resolve())
        self.files = self.root / "my files"
        self.files.mkdir()
        for it, text in FILES.items():
            self.write(it, text)
        self.command = self.root / "bin" / "rohcfn"
        tools = self.root / "tools"
        tools.mkdir()
        (tools / "rt").write_text('#!/bin/sh\necho "kit of $1"\n')
        (tools / "rt").chmod(0o755)
        (tools / "python3").write_text('#!/bin/sh\nexec "%s" "$@"\n' % sys.executable)  # (one in the PATH may be a script that takes its time)
        (tools / "python3").chmod(0o755)
        self.environment = {**os.environ, "PATH": "%s:%s" % (tools, os.environ["PATH"])}
        self.environment.pop("NO_COLOR", None)

    def write(self, name, text):
        """A file with this text."""
        (self.files / name).write_bytes(text if isinstance(text, bytes) else text.encode())

    def call(self, *words, given=b"", command=None, **how):
        """How a call ended and what it wrote."""
        how = {"cwd": self.files, "env": self.environment, "timeout": 30, **how}
        ran = subprocess.run([command or self.command, *words], input=given, capture_output=True, check=False, **how)
        return ran.returncode, ran.stdout.decode(), ran.stderr.decode()

    def on_terminal(self, *words, sent=b"\x04", **more):
        """The status of a call whose three streams are a terminal, and all that it wrote."""
        above, below = pty.openpty()
        os.write(above, sent)
        with subprocess.Popen([self.command, *words], cwd=self.files, stdin=below, stdout=below, stderr=below, env={**self.environment, **more}) as running:
            os.close(below)
            seen = b""
            with contextlib.suppress(OSError):
                while select.select([above], [], [], 20)[0] and (octets := os.read(above, 4096)):
                    seen += octets
        os.close(above)
        return running.returncode, seen.decode().replace("\r\n", "\n")


def told(*words, **parts):
    """What the program that is told prints for words and parts."""
    return "%s\n%s" % ("".join("[%s]" % it for it in words), "".join("=== %s\n%s" % it for it in parts.items()))


TOP, REST, CERTIFICATE = ["--top", "two"], {"profile": PROFILE}, {"certificate": "rohcfn-certificate 1\nend\n"}

# Words that name files, the words that the program is told of them, and the parts that it is given, besides the profile; None where it is told nothing.
COMPOSED = [
    (["pack", "a profile.fn", "--item", "8:02"], ["pack", *TOP], {"items": "8:02\n"}),
    (["pack", "--item=8:02 y=1:80", "a profile.fn", "--items", "items", "--item", "8:03"], ["pack", *TOP], {"items": "8:02 y=1:80\n8:01\n8:03\n"}),
    (["pack", "a profile.fn", "--top", "one", "--items", "items", "--v2", "--context", "--from-context", "context", "--certificate", "certificate"],
     ["pack", "--top", "one", "--v2", "--context"], {"items": "8:01\n", "context": "x 8:07\n", **CERTIFICATE}),
    (["pack", "a profile.fn", "--item", "8:02", "--from-context", "packed"], ["pack", *TOP], {"items": "8:02\n", "context": "x 8:02\n"}),
    (["unpack", "a profile.fn", "--packets", "packed", "--packet", "9:1280"], ["unpack", *TOP], {"packets": "8:10\n8:11\n9:1280\n"}),
    (["fields", "a profile.fn", "--packets", "packed", "--packet=9:1280", "--context"], ["fields", *TOP, "--context"], {"packets": "8:10\n8:11\n9:1280\n"}),
    (["fields", "a profile.fn", "--items", "items", "--item", "8:03", "--from-context", "context"], ["fields", *TOP, "--items"],
     {"items": "8:01\n8:03\n", "context": "x 8:07\n"}),
    (["stats", "a profile.fn", "--items", "items", "--item", "8:03", "--v2", "--from-context", "context"], ["stats", *TOP, "--v2"], {"items": "8:01\n8:03\n", "context": FILES["context"]}),
    (["loss", "a profile.fn", "--items", "items", "--lost", "3", "--v2", "--from-context", "context"], ["loss", *TOP, "--v2", "--lost=3"], {"items": "8:01\n", "context": FILES["context"]}),
    (["loss", "--lost=63", "a profile.fn", "--item", "8:03", "--certificate", "certificate"], ["loss", *TOP, "--lost=63"], {"items": "8:03\n", **CERTIFICATE}),
    (["loss", "a profile.fn", "--item", "8:03"], ["loss", *TOP], {"items": "8:03\n"}),
    (["pack", "a profile.fn", "--item", "8:03", "--robust", "3", "--context"], ["pack", *TOP, "--context", "--robust=3"], {"items": "8:03\n"}),
    (["stats", "--robust=0", "a profile.fn", "--items", "items"], ["stats", *TOP, "--robust=0"], {"items": "8:01\n"}),
    (["loss", "a profile.fn", "--robust", "63", "--item", "8:03", "--lost=2"], ["loss", *TOP, "--lost=2", "--robust=63"], {"items": "8:03\n"}),
    (["fields", "--item=8:02", "a profile.fn", "--v2", "--certificate", "certificate"], ["fields", *TOP, "--v2", "--items"], {"items": "8:02\n", **CERTIFICATE}),
    (["show", "a profile.fn"], ["show", *TOP], {}),
    (["lint", "a profile.fn", "--from-context", "context"], ["lint", *TOP], {"context": "x 8:07\n"}),
    (["show", "a profile.fn", "--top", "--help"], None, None),
    (["check", "a profile.fn", "--certificate", "certificate", "--v2"], ["check", *TOP, "--v2"], CERTIFICATE),
    (["prove", "./a profile.fn", "--v2"], ["prove", *TOP, "--v2"], {}),
    (["line", "a profile.fn", "--events", "events"], ["line", *TOP], {"events": "reset 0\n"}),
    (["line", "a profile.fn", "--octets", "octets"], ["line", *TOP, "--receive"], {"octets": "00\n80\n"}),
    (["line", "a profile.fn", "--receive", "--octets", "sent"], ["line", *TOP, "--receive"], {"octets": "0080\n"}),
    (["line", "a profile.fn", "--wide", "--events", "events"], ["line", *TOP, "--wide"], {"events": "reset 0\n"}),
    (["line", "a profile.fn", "--wide", "--octets", "octets"], ["line", *TOP, "--receive", "--wide"], {"octets": "00\n80\n"}),
    (["line", "a profile.fn", "--frames", "--events", "events"], ["line", *TOP, "--frames"], {"events": "reset 0\n"}),
    (["line", "a profile.fn", "--frames", "--robust", "2", "--events", "events"], ["line", *TOP, "--frames", "--robust=2"], {"events": "reset 0\n"}),
    (["line", "a profile.fn", "--frames", "--octets", "octets"], ["line", *TOP, "--receive", "--frames"], {"octets": "00\n80\n"}),
]
# Texts of a profile, and the method that is the top of each.
LAST = (("none", "", "top"), ("cut", "a { } b {", "b"), ("bad", "a { } ? c(d { {", "a"), ("bits", "a { x =:= '0}'; } }", "a"))


def composed(place):
    """The bundles of each option."""
    for words, asked, parts in COMPOSED:
        seen = place.call(*words)
        if asked is not None:
            check("a bundle: %s" % words, seen == (7, told(*asked, **parts, **REST), ""), seen)
    seen = place.call("pack", "a profile.fn", "--items", "-", given=b"8:05")
    check("items of standard input", seen == (7, told("pack", *TOP, items="8:05\n", **REST), ""), seen)
    seen = place.call("prove", "-", given=PROFILE.encode())
    check("a profile of standard input", seen == (7, told("prove", *TOP, **REST), ""), seen)
    seen = place.call("show", "--diagnose", "a profile.fn")
    check("a program that names no fault", seen == (7, told("show", *TOP, **REST), ""), seen)
    for name, text, last in LAST:
        place.write(name, text)
        check("the top of %s" % name, place.call("show", name) == (7, told("show", "--top", last, profile=text), ""), place.call("show", name))


def paths(place):
    """Files and the script by links, from elsewhere."""
    (place.files / "link.fn").symlink_to("a profile.fn")
    (place.files / "door").symlink_to("../bin/rohcfn")
    due = (7, told("prove", "--top", "two", profile=PROFILE), "")
    for path, how in (("link.fn", {}), (str(place.files / "link.fn"), {"cwd": "/"}), ("my files/link.fn", {"cwd": place.root})):
        check("a link: %s" % path, place.call("prove", path, command=place.files / "door", **how) == due)
    (place.files / "-x.fn").write_text(PROFILE)
    check("a name that begins with a dash", place.call("prove", "./-x.fn") == due)
    for words, status, text in (
            (["show", "nowhere.fn"], 3, "rohcfn: nowhere.fn: No such file or directory\n"),
            (["show", "."], 3, "rohcfn: .: Is a directory\n"),
            (["pack", "a profile.fn", "--items", "no items"], 3, "rohcfn: no items: No such file or directory\n"),
            (["pack", "packed", "--items", "items"], 2, "rohcfn: packed:3: a line that begins with `=== ` can't stand in a bundle\n")):
        check("a file that can't be taken: %s" % words, place.call(*words) == (status, "", text), place.call(*words))


def untouched(place):
    """Calls that are the filter's, and words after `--`."""
    for words in (["pack", "--top", "two"], ["pack", "--top", "two", "--context", "--v2"], ["show", "--top=two"], [], ["line", "--top", "two", "--receive"],
                  ["fields", "--top", "two", "--items", "--context"], ["fields", "--items", "--top=two", "--v2"],
                  ["loss", "--top", "two"], ["loss", "--lost", "3", "--top", "two", "--v2"], ["loss", "--top=two", "--lost=63"]):
        seen = place.call(*words, given=b"\x00 any\n")
        check("the filter: %s" % words, seen == (7, "%s\n\x00 any\n" % ("".join("[%s]" % it for it in words) or "[]"), ""), seen)
    for words in (["pack", "--top", "two"], ["show", "--top=two"], ["line", "--top", "two", "--receive", "--wide"], ["loss", "--top", "two", "--lost=0"], []):
        seen = place.call(*words, "--diagnose", given=b"\x00 any\n")
        due = "".join("[%s]" % it for it in words).replace("--top=", "--top][") or "[]"
        check("a bundle, a fault of which would be shown: %s" % words, seen == (7, due + "\n\x00 any\n", ""), seen)
    due = {("--", "pack", "x", "--item"): "[pack][x][--item]", ("pack", "x", "--", "--item"): "[pack][x][--][--item]", ("--", "--help"): "[--help]"}
    for words, due in due.items():
        check("untouched: %s" % (words,), place.call(*words) == (7, due + "\n", ""), place.call(*words))


# Words that ask for nothing, and what is said of them.
FAULTY = {
    ("pack", "a profile.fn"): "pack needs one of --item, --items, --pcap",
    ("unpack", "a profile.fn", "--top", "two"): "unpack needs one of --packet, --packets",
    ("fields", "a profile.fn"): "fields needs one of --item, --items, --pcap, --packet, --packets",
    ("fields", "a profile.fn", "--items"): "--items needs a value",
    ("fields", "a profile.fn", "--packet", "8:01", "--items", "x"): "--items and --packet don't go together",
    ("fields", "a profile.fn", "--pcap", "x", "--packets", "y"): "--pcap and --packets don't go together",
    ("fields", "a profile.fn", "--item", "8:01", "--pcap", "x"): "--item and --pcap don't go together",
    ("fields", "a profile.fn", "--item", "8:01", "--wide"): "--wide is no option of fields",
    ("line", "a profile.fn", "--events", "events", "--frames", "--wide"): "--frames has 64 flows, and goes without --wide",
    ("line", "a profile.fn", "--events", "events", "--robust", "1"): "--robust goes with --frames, where events are sent",
    ("line", "a profile.fn", "--octets", "octets", "--frames", "--robust", "1"): "--robust goes with --frames, where events are sent",
    ("stats", "a profile.fn"): "stats needs one of --item, --items, --pcap",
    ("stats", "a profile.fn", "--packet", "8:01"): "--packet is no option of stats",
    ("stats", "a profile.fn", "--item", "8:01", "--context"): "--context is no option of stats",
    ("loss", "a profile.fn", "--lost", "3"): "loss needs one of --item, --items, --pcap",
    ("loss", "a profile.fn", "--packet", "8:01"): "--packet is no option of loss",
    ("loss", "a profile.fn", "--item", "8:01", "--context"): "--context is no option of loss",
    ("loss", "a profile.fn", "--item", "8:01", "--lost"): "--lost needs a value",
    ("loss", "a profile.fn", "--item", "8:01", "--lost", "1", "--lost=2"): "--lost stands twice",
    ("stats", "a profile.fn", "--item", "8:01", "--lost", "1"): "--lost is no option of stats",
    ("pack", "a profile.fn", "--robust", "3"): "pack needs one of --item, --items, --pcap",
    ("pack", "a profile.fn", "--item", "8:01", "--robust"): "--robust needs a value",
    ("loss", "a profile.fn", "--item", "8:01", "--robust", "1", "--robust=2"): "--robust stands twice",
    ("unpack", "a profile.fn", "--packet", "8:01", "--robust", "1"): "--robust is no option of unpack",
    ("line", "a profile.fn"): "line needs one of --events, --octets, --pcap",
    ("line", "a profile.fn", "--octets", "x", "--events", "y"): "--events and --octets don't go together",
    ("line", "a profile.fn", "--events", "x", "--receive"): "--receive needs --octets",
    ("pack", "a profile.fn", "--item", "8:01", "--flow", "0"): "--flow goes with --pcap, and is a number from 0",
    ("line", "a profile.fn", "--pcap", "x", "--flow", "0"): "--flow is no option of line",
    ("pack", "a profile.fn", "--item", "8:01", "--pcap", "x"): "--item and --pcap don't go together",
    ("show", "a profile.fn", "--v2"): "--v2 is no option of show",
    ("check", "a profile.fn", "--item", "8:01"): "--item is no option of check",
    ("pack", "--item", "8:01"): "the file of a profile is needed",
    ("pack", "-", "--items", "-"): "standard input can be one file alone",
    ("show", "a profile.fn", "another"): "unexpected argument 'another' found",
    ("show", "a profile.fn", "--v2=1"): "unexpected argument '--v2=1' found",
    ("show", "a profile.fn", "--top"): "--top needs a value",
    ("show", "a profile.fn", "--top", "a", "--top=b"): "--top stands twice",
    ("pack", "a profile.fn", "--pcap", "x", "--flow=-1"): "--flow goes with --pcap, and is a number from 0",
    ("pack", "a profile.fn", "--context", "items"):
    "unexpected argument 'items' found; --context has no value, --from-context FILE gives the context to begin with",
    ("show", "a profile.fn", "--tip"): "unexpected argument '--tip' found",
}


def usage_faults():
    """These words, numbers of losses that are none, and options of each command with no file of a profile."""
    yield from FAULTY.items()
    for value in ("64", "+1", "-1", "01", "", "1x", " 1", "100", "\u0661"):
        for command, name in (("loss", "--lost"), ("loss", "--robust"), ("pack", "--robust"), ("stats", "--robust")):
            yield (command, "a profile.fn", "--item", "8:01", name, value), "invalid value '%s' for '%s <N>': a number from 0 to 63 is needed" % (value, name)
    table = commands.table()
    for command in table.commands:
        for it in table.of(command, files=True):
            if it.value and it.name != "top":
                yield (command, "--%s=1" % it.name), "the file of a profile is needed"
    yield ("show", "--diagnose"), "the file of a profile is needed"


def usage(place):
    """Words that ask for nothing, which need no input; help, version; a terminal."""
    with open("/dev/zero", "rb") as endless:
        for words, text in dict(usage_faults()).items():
            ran = subprocess.run([place.command, *words], stdin=endless, capture_output=True, cwd=place.files, env=place.environment, timeout=20, check=False)
            seen = ran.returncode, ran.stdout, ran.stderr.decode()
            check("a usage fault: %s" % (words,), seen == (2, b"", "error: %s\n\nFor more information, try '--help'.\n" % text), seen)
        for words, part in ((["--help"], ""), (["help"], ""), (["pack", "--help"], " pack"), (["help", "line"], " line"), (["pack", "x.fn", "-h"], " pack")):
            ran = subprocess.run([place.command, *words], stdin=endless, capture_output=True, env=place.environment, timeout=20, check=False)
            text = ran.stderr.decode()
            check("help: %s" % words, ran.returncode == 0 and "Usage: rohcfn%s " % part in text and "--from-context FILE" in text, text)
    check("the program's own usage faults, with no input", place.call("pack", "--tip", given=b"input") == (7, "[pack][--tip]\n", ""))
    status, seen = place.on_terminal()
    check("a bare call in a terminal", status == 7 and seen.startswith("rohcfn: a bundle is awaited on standard input"), seen)
    version(place)


def version(place):
    """What `--version` tells: the kit, the commit of the sources, and that of the program."""
    seen = place.call("--version")
    check("the kit", seen == (0, "rohcfn, kit kit of --version\n", ""), seen)
    if shutil.which("git") is None:
        return
    for words in (["init", "-q"], ["add", "bin", "front"], ["commit", "-q", "-m", "one"]):
        settings = [it for one in ("user.name=a", "user.email=a@example.org", "commit.gpgsign=false") for it in ("-c", one)]
        subprocess.run(["git", *settings, *words], cwd=place.root, env=place.environment, check=True, stdout=subprocess.DEVNULL)
    commit = subprocess.run(["git", "rev-parse", "--short", "HEAD"], cwd=place.root, capture_output=True, check=True).stdout.decode().strip()
    seen = place.call("--version")
    check("the commit of the sources", seen == (0, "rohcfn, of a commit that isn't noted, sources of commit %s, kit kit of --version\n" % commit, ""), seen)
    (place.root / "crates" / "rohcfn" / "out" / "rohcfn.built").write_text("%s\nabc1234\n" % ("0" * 64))
    seen = place.call("--version")
    check("the commit of the program", seen == (0, "rohcfn, commit abc1234, kit kit of --version\n", ""), seen)


def capture(link, frames, order="<", magic=0xA1B2C3D4):
    """A capture of frames."""
    records = [struct.pack(order + "IIII", 1, 2, len(it), len(it) + 100) + it for it in frames]
    return struct.pack(order + "IHHiIII", magic, 2, 4, 0, 0, 65535, link) + b"".join(records)


ETHERNET = bytes(12) + b"\x08\x00"
LINKED = {
    "ethernet": (1, ETHERNET), "tagged": (1, bytes(12) + b"\x81\x00\x00\x07\x08\x00"), "raw": (101, b""), "loopback": (0, b"\x02\0\0\0"),
    "cooked": (113, bytes(14) + b"\x08\x00"), "cooked 2": (276, b"\x08\x00" + bytes(18)),
}


def payload(kind):
    """What stands after a header in a capture: for UDP something that is no RTP, too."""
    return b"\x00 body" if kind == "udp" else b"body"


def captures(place):
    """Captures of the headers of data/, in each kind of link and order of octets, against headers.py."""
    for kind in headers.TOPS:
        every = headers.headers_of(kind, (EXAMPLES / "data" / (kind + "-headers.hex")).read_text().splitlines())
        shutil.copy(EXAMPLES / "profiles" / (kind + ".profile"), place.files)
        profile = kind + ".profile"
        due = headers.bundle(kind, "line", "events", headers.events(kind, every))
        for name, (link, front) in list(LINKED.items())[:None if kind == "udp" else 2]:
            order, magic = ("<", 0xA1B2C3D4) if len(name) % 2 else (">", 0xA1B23C4D)
            place.write(name, capture(link, [front + it + payload(kind) for it in every], order, magic))
            seen = place.call("line", profile, "--pcap", name)
            check("a capture: %s %s" % (kind, name), seen[0] == 7 and spelled(seen[1]) == spelled(due) and seen[2] == "", seen[2])
        whole = every[0] + bytes(20)
        others = [bytes(12) + b"\x08\x06" + bytes(28), ETHERNET + b"\x46" + whole[1:], b""]
        others += [ETHERNET + whole[:6] + it + whole[8:] for it in (b"\x20\x00", b"\x00\x01")] + [ETHERNET + whole[:9] + b"\x06" + whole[10:]]
        place.write("others", capture(1, others + [ETHERNET + it + payload(kind) for it in every]))
        flows = list(headers.by_flow(every).values())
        for at, flow in enumerate(flows):
            seen = place.call("pack", profile, "--pcap", "others", "--flow", str(at))
            due = headers.bundle(kind, "pack", "items", headers.items(kind, flow))
            layers = "ipv4 and udp" + " and rtp" * (kind == "rtp")
            told_of = "rohcfn: others: %d of %d packets have no header of %s\n" % (len(others), len(every) + len(others), layers)
            check("a flow: %s %d" % (kind, at), seen[0] == 7 and spelled(seen[1]) == spelled(due) and seen[2] == told_of, seen[2])
    seen = place.call("pack", "udp.profile", "--pcap", "ethernet")
    check("no flow is chosen", seen[:2] == (2, "") and "choose one flow by --flow\nflow 0, 127.0.0.22:40002 to 127.0.0.31:5006: 100 headers\n" in seen[2], seen)


def spelled(bundle):
    """The command and top, and the parts of a bundle, in whichever order they stand."""
    first, *parts = bundle.split("=== ")
    named = dict(it.split("\n", 1) for it in parts)
    words = named.pop("words", None)
    return (words.split() if words else first.strip()[1:-1].split("][")), named


V6 = bytes.fromhex("60012345001411402001" + "0" * 26 + "0122" + "20010000000000000000000000000002" "1234567800180000")
ESP4 = bytes.fromhex("4500003000074000403200007f0000017f000002" "0000abcd00010007" "ffff")
ESP6 = bytes.fromhex("6000000000203240" "20010000000000000000000000000001" "20010000000000000000000000000002" "0000abcd00010008" "ffff")
V4 = "v [4]; h [4]; tos [8]; len [16]; id [16]; off [16]; ttl [8]; p [8]; sum [16]; s [32]; d [32];"
LONG = "v [4]; tc [8]; fl [20]; len [16]; nh [8]; hl [8]; s1 [64]; s2 [64]; d1 [64]; d2 =:= irregular(64);"
SIX = bytes.fromhex("6001234500181140" "20010000000000000000000000000001" "20010000000000000000000000000002")
UDP, RTP = bytes.fromhex("1234567800180000"), bytes.fromhex("80e0fffe0000000a00000001")
ESP = "i [32]; n [A * 2 + 0x10];"
# Headers that are cut by profiles: the profile's name, the fields of its header, its control fields, the headers, what is inferred for them, and the flow of the first.
CUT = [
    ("esp", ESP, "", [ESP4[20:28], ESP6[40:48]], "", 0),
    ("four_esp", V4 + ESP, "CONTROL { msn [16]; q =:= static [1]; r [4]; ENFORCE(2 == 2 && (r.UVALUE) == msn.UVALUE + 1); }", [ESP4[:28]],
     " msn=16:0007", 0),
    ("six", LONG.replace("=:= irregular(64)", "=:= uncompressed_value(64, 2)"), "CONTROL { msn [8]; }", [SIX], " msn=8:00", 1),
    ("six_udp", LONG.replace("=:= irregular(64)", "[64]") + "sp [16]; dp [16]; ul [16]; us [16];", "CONTROL { msn [8]; udp_checksum_used [1]; }",
     [SIX + UDP], " msn=8:00 udp_checksum_used=1:00", 0),
    ("rtp", "v [2]; p [1]; x [1]; c [4]; m [1]; t [7]; n [16]; ts [32]; s [32];", "CONTROL { msn [4]; ts_stride [32]; }", [RTP],
     " msn=4:e0 ts_stride=32:00000001", 0),
]
# Calls that are refused, each with its status and what it says.
REFUSED = [
    (["pack", "width.fn", "--pcap", "mixed"], 2, "width.fn: w's header has 7 bits, and --pcap cuts none of that length; --cut cuts any"),
    (["pack", "open.fn", "--pcap", "mixed"], 2, "open.fn: the fields of w's header have no constant lengths, so --pcap doesn't know what to cut; --cut says it"),
    (["pack", "asks.fn", "--pcap", "zero"], 2,
     "--pcap can't infer other: of an asked field it knows msn, ip_id_behaviour, udp_checksum_used, tcp_options and ts_stride alone"),
    (["pack", "narrow.fn", "--pcap", "zero"], 2, "--pcap infers 3 for ip_id_behaviour, which has 1 bits"),
    (["pack", "esp.fn", "--pcap", "items"], 3, "items: this is no capture of the format pcap or pcapng"),
    (["pack", "esp.fn", "--pcap", "next"], 3, "next: a section of the capture begins with no order of octets"),
    (["pack", "esp.fn", "--pcap", "short"], 3, "short: the capture ends inside packet 1"),
    (["pack", "esp.fn", "--pcap", "cut"], 3, "cut: the capture ends inside packet 2"),
    (["pack", "esp.fn", "--pcap", "link"], 3, "link: packets of the link type 105 can't be read"),
    (["pack", "esp.fn", "--pcap", "nothing"], 2, "nothing: no packet has a header of esp"),
    (["pack", "rtp.fn", "--pcap", "control"], 2, "control: 1 of 1 packets have no header of rtp\nrohcfn: control: no packet has a header of rtp: it has 1 ipv6 and udp"),
    (["pack", "esp.fn", "--pcap", "no capture"], 3, "no capture: No such file or directory"),
]


def by_hand(place):
    """Headers of IPv6 and ESP, alone and together, by what the profile's header is; what is refused."""
    place.write("mixed", capture(101, [ESP4, ESP6, SIX + UDP + RTP + b"body"]))
    for name, fields, control, cut, asked, flow in CUT:
        text = "A = 2^3;\nhelp { UNCOMPRESSED { y [8]; } }\n%s { UNCOMPRESSED { ENFORCE(1 == 1); %s } %s COMPRESSED { } }\n" % (name, fields, control)
        place.write(name + ".fn", text)
        for at, header in enumerate(cut):
            # (each packet is of another flow)
            words = ["--flow", str(at + flow)] if len(cut) > 1 or flow else []
            seen = place.call("pack", name + ".fn", "--pcap", "mixed", *words)
            item = "%d:%s%s\n" % (8 * len(header), header.hex(), asked)
            check("by hand: %s" % name, seen[:2] == (7, told("pack", "--top", name, items=item, profile=text)), seen)
    seen = place.call("pack", "esp.fn", "--pcap", "mixed")
    lines = "flow 0, 127.0.0.1 to 127.0.0.2, index 0000abcd: 1 headers\nflow 1, [2001:0:0:0:0:0:0:1] to [2001:0:0:0:0:0:0:2], index 0000abcd: 1 headers\n"
    check("flows of ESP", seen[0] == 2 and seen[2].endswith(lines), seen)
    refused(place)


def refused(place):
    """Profiles and captures by which nothing can be cut, and flows that a line has no room for."""
    place.write("width.fn", "w { UNCOMPRESSED { a [7]; } }")
    place.write("open.fn", "w { UNCOMPRESSED { a [VARIABLE]; } }")
    place.write("asks.fn", "w { UNCOMPRESSED { i [32]; n [32]; } CONTROL { other [1]; } }")
    place.write("narrow.fn", "w { UNCOMPRESSED { %s } CONTROL { ip_id_behaviour [1]; } }" % V4)
    place.write("zero", capture(101, [ESP4[:4] + bytes(2) + ESP4[6:]]))
    place.write("many", capture(101, [ESP4[:20] + bytes([it]) + ESP4[21:] for it in range(17)]))
    place.write("next", b"\x0a\x0d\x0d\x0a" + bytes(40))
    place.write("short", capture(101, [ESP4])[:-1])
    place.write("cut", capture(101, [ESP4]) + bytes(9))
    place.write("control", capture(101, [SIX + UDP + b"\x80\xc8" + RTP[2:]]))
    place.write("link", capture(105, [ESP4]))
    place.write("nothing", capture(101, []))
    for words, status, text in REFUSED:
        seen = place.call(*words)
        check("refused: %s" % words, seen == (status, "", "rohcfn: %s\n" % text), seen)
    seen = place.call("line", "esp.fn", "--pcap", "many")
    check("more flows than a line has", seen[0] == 2 and "many: 17 flows, and a line has 16\n" in seen[2], seen)
    seen = place.call("line", "esp.fn", "--wide", "--pcap", "many")
    check("as many flows as the wide line has", seen[0] != 2 and seen[2] == "", seen)


def parted(bundle):
    """The words of a bundle and its other parts."""
    parts = dict(it.split("\n", 1) for it in ("\n" + bundle).split("\n=== ")[1:])
    return parts.pop("words").split(), {name: text + "\n" for name, text in parts.items()}


def by_files(place, path):
    """Whether a worked input gives the stored output by files. Where its top is the last method it is left out."""
    words, parts = parted(path.read_text())
    folder = place.files / path.stem
    folder.mkdir()
    for name, text in parts.items():
        (folder / name).write_text(text.removesuffix("\n") if text.endswith("\n\n") else text)
    files = [it for name in parts if name != "profile" for it in (PARTS[name], name)]
    due, tops = path.with_suffix(".expected").read_text(), words.index("--top")
    more = [it for it in (words[1:] if "E27" in due else words[1:tops] + words[tops + 2:]) if it != "--items"]
    seen = place.call(words[0], "profile", *files, *more, cwd=folder)
    return path.name, seen[1:] == (due, ""), seen


def worked(place):
    """The worked inputs by files, with the program: what it prints is stored."""
    paths = sorted([*EXAMPLES.glob("*.bundle"), *EXAMPLES.glob("bundles/*.bundle")])
    with concurrent.futures.ThreadPoolExecutor(max_workers=4) as pool:
        for name, holds, seen in pool.map(lambda it: by_files(place, it), paths):
            check("by files: %s" % name, holds, seen)


def there_and_back(place):
    """Captures through the program: the headers come back."""
    for kind in headers.TOPS:
        every = headers.headers_of(kind, (EXAMPLES / "data" / (kind + "-headers.hex")).read_text().splitlines())
        shutil.copy(EXAMPLES / "profiles" / (kind + ".profile"), place.files)
        place.write("capture", capture(1, [ETHERNET + it + payload(kind) for it in every]))
        status, printed, said = place.call("line", kind + ".profile", "--pcap", "capture")
        check("a line of a capture: %s" % kind, (status, said) == (0, ""), said)
        place.write("sent", printed)
        status, back, said = place.call("line", kind + ".profile", "--octets", "sent")
        check("there and back: %s" % kind, (status, said) == (0, "") and [headers.octets_of(it) for it in back.splitlines()] == every, said)
        flow = next(iter(headers.by_flow(every).values()))
        place.write("packed", place.call("pack", kind + ".profile", "--pcap", "capture", "--flow", "0", "--context")[1])
        back = place.call("unpack", kind + ".profile", "--packets", "packed")[1]
        check("a flow there and back: %s" % kind, [headers.octets_of(it) for it in back.splitlines()] == flow)


def closed(place):
    """A reader that goes away is no news, neither by files nor by the filter."""
    place.write("plain.fn", parted((EXAMPLES / "plain.bundle").read_text())[1]["profile"])
    place.write("many", "16:5abc\n" * 60000)
    place.write("bundle", "=== profile\n%s=== items\n%s" % ((place.files / "plain.fn").read_text(), "16:5abc\n" * 60000))
    how = {"cwd": place.files, "env": place.environment, "timeout": 30, "check": False}
    for call in ('"$0" pack plain.fn --items many', '"$0" pack plain.fn --items many --diagnose', '"$0" pack --top plain <bundle', '"$0" --help 2>&1'):
        ran = subprocess.run(["bash", "-c", call + " | head -n 1", place.command], capture_output=True, **how)
        due = (b"18:96af00\n", b"") if "--help" not in call else (ran.stdout[:6] and ran.stdout, b"")
        check("a closed pipe: %s" % call, (ran.stdout, ran.stderr) == due, (ran.stdout, ran.stderr))
    for more in ([], ["--diagnose"]):
        with open("/dev/full", "wb") as full:
            ran = subprocess.run([place.command, "pack", "plain.fn", "--items", "many", *more], stdout=full, stderr=subprocess.PIPE, **how)
        check("a full disk is news %s" % more, (ran.returncode, ran.stderr) == (3, b"error: writing the output failed\n"), ran)
    for shut, due in ((">&-", 3), ("2>&-", 1), ("--diagnose >&-", 3), ("--diagnose 2>&-", 1)):
        ran = subprocess.run(["bash", "-c", '"$0" pack plain.fn --item 16:5abc --item none ' + shut, place.command], capture_output=True, **how)
        printed = b"items:2: I1 bad item\n" if due == 1 else b""
        check("a stream that is closed: %s" % shut, (ran.returncode, ran.stdout) == (due, printed) and b"Traceback" not in ran.stderr, ran)


def told_faults():
    """For each fault that is told: its name, the words and the profile that have it, what the program prints, and what is shown of it besides."""
    text = (EXAMPLES / "diagnosed.cases").read_text()
    stored = {"%s: %s" % (path.name, name): it for path in EXAMPLES.glob("cases/E*.cases") for name, *it in cases.stored(path)}
    for block in ("\n" + text).split("\n=== case ")[1:]:
        name, due = block.partition("\n=== profile ")[0].split("\n", 1)
        bundle, status, output = stored[name]
        words, parts = parted(bundle.decode())
        yield name, words, parts["profile"], (status, output.decode()), due
    for block in ("\n" + text).split("\n=== profile ")[1:]:
        name, rest = block.split("\n", 1)
        profile, due = rest.split("=== told\n")
        first = due.partition("\n")[0].replace("p.fn:", "profile:")
        yield name, ["show", "--top", "q"], profile, (1, first + "\n"), due


def without_pages(said):
    """What is shown of faults, without the lines that are those of docs/FAULTS.md."""
    page = " ".join((ROOT / "docs" / "FAULTS.md").read_text().split())
    return "\n".join(it for it in said.splitlines() if not (it.startswith("help: ") and it[6:] in page))


def diagnosed(place):
    """What is shown of faults of a profile: by --diagnose, in a terminal, and not in a pipe."""
    folders = []
    for at, told_fault in enumerate(told_faults()):
        folders.append((place.files / ("fault %d" % at), *told_fault))
        folders[-1][0].mkdir()
        (folders[-1][0] / "p.fn").write_text(told_fault[2])
    with concurrent.futures.ThreadPoolExecutor(max_workers=4) as pool:
        calls = [pool.submit(place.call, "show", "p.fn", *words[1:], "--diagnose", cwd=folder) for folder, _, words, *_ in folders]
        for (_, name, _, _, printed, due), called in zip(folders, calls):
            status, out, said = called.result()
            check("a fault: %s" % name, (status, out) == printed and without_pages(said) == due.rstrip("\n"), (status, out, said))
            codes = set(re.findall(r"^p\.fn:\d+:\d+: (E\d\d) ", said, re.MULTILINE))
            check("with what the page says: %s" % name, len([it for it in said.splitlines() if it not in without_pages(said).splitlines()]) >= len(codes), said)
    for name, octets, line, column, said in (("E04", b" " * ((1 << 20) + 1), " " * 160, 1, "text is above 1 MiB"), ("E05", b"q { \xff }\n", "q { \ufffd }", 5, "text is not UTF-8")):
        (place.files / "octets.fn").write_bytes(octets)
        ran = place.call("show", "octets.fn", "--diagnose")
        line = "octets.fn:1:%d: %s %s\n1 | %s\n  | %s^\n" % (column, name, said, line, " " * (column - 1))
        check("a fault of octets: %s" % name, ran[:2] == (1, "profile:1:%d: %s %s\n" % (column, name, said)) and ran[2].startswith(line), ran)
    lines_of_octets(place)
    place.write("p.fn", "q { } ;;\n")
    line = "profile:1:8: E10 unexpected token\n"
    check("nothing more in a pipe", place.call("show", "p.fn") == (1, line, ""), place.call("show", "p.fn"))
    plain = line + "p.fn:1:8: E10 unexpected token\n1 | q { } ;;\n  |        ^\nhelp: expected a constant or a method\n"
    for more, coloured in (({"TERM": "xterm"}, True), ({"TERM": "xterm", "NO_COLOR": "1"}, False), ({"TERM": "dumb"}, False)):
        status, seen = place.on_terminal("show", "p.fn", **more)
        check("in a terminal: %s" % more, status == 1 and ("\033[" in seen) == coloured and re.sub("\033\\[[0-9;]*m", "", seen).startswith(plain), seen)
    in_bundles(place)
    (place.root / "docs" / "FAULTS.md").unlink()
    due = plain.removeprefix(line) + "see docs/FAULTS.md, E10; docs/FORMATS.md\n"
    check("where there are no pages", place.call("show", "p.fn", "--diagnose") == (1, line, due), place.call("show", "p.fn", "--diagnose"))


def lines_of_octets(place):
    """What is shown of a line of items or packets that has octets alone; of other bad lines nothing is."""
    place.write("plain.fn", parted((EXAMPLES / "plain.bundle").read_text())[1]["profile"])
    for command, words, due in (("pack", "--item 16:5abc --item 0x5ABC", "16:5ABC"), ("pack", "--item 123", "12:1230"), ("unpack", "--packet 96af00", "24:96af00")):
        part, word = ("items", "I1 bad item") if command == "pack" else ("packets", "I2 bad packet")
        ran = place.call(command, "plain.fn", *words.split(), "--diagnose")
        number = words.count("--item ") if command == "pack" else 1
        said = "help: the number of bits and a colon stand before the octets: %s\n" % due
        check("octets alone: %s" % words, (ran[0], ran[1].splitlines()[-1:], ran[2]) == (1, ["%s:%d: %s" % (part, number, word)], said), ran)
    for words in ("16:5a", "none", "5abc=8:01", "16:5abc:00"):
        ran = place.call("pack", "plain.fn", "--item", words, "--diagnose")
        check("another bad line: %s" % words, ran == (1, "items:1: I1 bad item\n", ""), ran)


def in_bundles(place):
    """What is shown of faults of a profile in a bundle on standard input: the lines count in the bundle."""
    profile = "q {\n  UNCOMPRESSED { x [8]; y [8]; }\n  COMPRESSED { x =:= irregula(8); y =:= irregular; }\n}\n"
    shown = (
        "-:%d:22: E20 name irregula is not known\n%d |   COMPRESSED { x =:= irregula(8); y =:= irregular; }\n  |                      ^^^^^^^^\n"
        "help: do you mean `irregular`?\nsee docs/FAULTS.md, E20; docs/NOTATION.md\n"
        "-:%d:41: E22 wrong number of arguments for irregular\n%d |   COMPRESSED { x =:= irregula(8); y =:= irregular; }\n  |"
        "                                         ^^^^^^^^^\nhelp: irregular takes 1, and here are 0\nsee docs/FAULTS.md, E22; docs/NOTATION.md")
    line = "profile:3:22: E20 name irregula is not known\n"
    for name, words, bundle, above in (
            ("words in the bundle", [], "=== words\npack --top q\n=== profile\n%s=== items\n16:0102\n" % profile, 3),
            ("words of its own", ["pack", "--top", "q", "--context"], "=== profile\n%s=== items\n16:0102" % profile, 1),
            ("CR before LF", [], "=== profile\n%s=== words\ncheck --v2 --top=q\n".replace("\n", "\r\n") % profile, 1),
            ("no more parts", ["show", "--top=q"], "=== items\n\n=== profile\n" + profile, 3)):
        status, out, said = place.call(*words, "--diagnose", given=bundle.encode())
        due = shown % ((above + 3,) * 4)
        check("a fault in a bundle: %s" % name, (status, out) == (1, line) and without_pages(said) == due, (status, out, said))
        check("no fault is shown unasked: %s" % name, place.call(*words, given=bundle.encode()) == (1, line, ""))
    given = "=== words\nshow --top q\n=== profile\na = 1;\nq { UNCOMPRESSED { x [8]; } COMPRESSED { x =:= static; } }\na = 2;\n"
    due = ("-:6:1: E21 name a is defined twice\n6 | a = 2;\n  | ^\n-:4:1: note: a is first defined here\n4 | a = 1;\n  | ^\n"
           "see docs/FAULTS.md, E21; docs/NOTATION.md")
    seen = place.call("--diagnose", given=given.encode())
    check("the first place in a bundle", (seen[1], without_pages(seen[2])) == ("profile:3:1: E21 name a is defined twice\n", due), seen)
    for bundle, status, out in (("=== words\nshow --top q\n", 1, "bundle: I4 bad part profile\n"), ("", 1, "bundle: I4 bad part words\n"),
                                ("=== words\nshow --top q\n=== profile\n", 1, "profile:1:1: E27 no such top method without parameters\n")):
        seen = place.call("--diagnose", given=bundle.encode())
        check("a bundle that lacks something: %r" % bundle, seen[:2] == (status, out) and seen[2].startswith("-:4:1: E27 ") == ("E27" in out), seen)
    for bundle, text in (("=== x\n", "bad part x"), ("=== profile\nq {}\n=== profile\n", "bad part profile"), ("q {}\n", "bad part -"), ("=== profile\n" + "\n" * (4 << 20), "above 4 MiB")):
        words, code = ["check", "--top", "q", "--json"], "I6" if "MiB" in text else "I4"
        line = '{"kind":"fault","part":"bundle","line":null,"column":null,"number":null,"code":"%s","text":"%s"}\n' % (code, text)
        check("before the words, an object: %s" % text, place.call(*words, "--diagnose", given=bundle.encode()) == (1, line, ""))
        check("before the words, without a script a line: %s" % text, place.call(*words, given=bundle.encode()) == (1, "bundle: %s %s\n" % (code, text), ""))


def usage_page(place):
    """The calls that docs/USAGE.md shows, in a folder with the files that it shows."""
    text = (ROOT / "docs" / "USAGE.md").read_text()
    (place.files / "bin").symlink_to("../bin")
    shutil.copy(EXAMPLES / "profiles" / "udp.profile", place.files)
    every = headers.headers_of("udp", (EXAMPLES / "data" / "udp-headers.hex").read_text().splitlines())
    place.write("trace.pcap", capture(1, [ETHERNET + it + b"body" for it in every]))
    for name, content in re.findall(r"^`(\S+)`:\n\n```\n(.*?)^```$", text, re.MULTILINE | re.DOTALL):
        place.write(name, content)
    for block in re.findall(r"^```sh\n(.*?)^```$", text, re.MULTILINE | re.DOTALL):
        for call in block.removeprefix("$ ").split("\n$ "):
            words, _, due = call.partition("\n")
            seen = place.call("-c", words, command="bash")
            check("docs/USAGE.md: %s" % words, (seen[1] + seen[2]).rstrip("\n") == due.rstrip("\n"), seen)


def all_faults(_):
    """Each stored fault of a profile is shown at its place, and the grammar stops where the program does."""
    for path in sorted(EXAMPLES.glob("cases/*.cases")):
        for name, bundle, _, output in cases.stored(path):
            if output.rstrip(b"\n").rpartition(b"\n")[2].startswith(b"profile:") and not bundle.endswith(b"=== "):
                place, line, column = shown_of(bundle, output)
                lines = place.text.split("\n")
                seen = list(diagnosis.lines_of(place, "p.fn", lambda _, words: words))
                cut = max(0, column - 81) if len(lines[line - 1]) > 160 else 0
                due = "p.fn:%d:%d: E" % (line, column), ("%d | %s" % (line, lines[line - 1][cut:cut + 160])).rstrip(), len("%d | " % line) + column - 1 - cut
                found = seen[0][:len(due[0])], seen[1].rstrip(), len(seen[2].partition("^")[0])
                check("shown: %s: %s" % (path.name, name), found == due, seen)
                stopped = grammar.stops(place.tokens, place.place)
                check("stops: %s: %s" % (path.name, name), place.code != "E10" or stopped is not None and stopped[0] == place.place, stopped)


def shown_of(bundle, output):
    """The fault of a stored case, and its line and column."""
    parts = dict((it + b"\n").split(b"\n", 1) for it in (b"\n" + bundle.removesuffix(b"\n")).split(b"\n=== ")[1:])
    line, column = map(int, output.rstrip(b"\n").rpartition(b"\n")[2].split(b":")[1:3])
    return diagnosis.fault_of(output, parts[b"profile"].decode(errors="replace")), line, column


def main():
    trials = [(it, None) for it in (composed, paths, untouched, usage, captures, by_hand, all_faults)]
    trials += [(it, program) for program in [built()] for it in (worked, there_and_back, closed, diagnosed, usage_page)]
    with tempfile.TemporaryDirectory() as folder, concurrent.futures.ThreadPoolExecutor(max_workers=4) as pool:
        # (all copies are made before anything runs: a script can't be run while another process still has it open to write)
        places = [Place(folder, "a copy %d" % at, program) for at, (_, program) in enumerate(trials)]
        done = [pool.submit(trial, place) for (trial, _), place in zip(trials, places)]
        for it in done:
            it.result()
    return check.status()


if __name__ == "__main__":
    sys.exit(main())
