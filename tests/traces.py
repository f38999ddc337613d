"""Tries bin/rohcfn with traces: captures of both formats with TCP, ICMP and what is cut by its place; bare items; and traces that go through the program in pieces,
whose output has to be that of one call. The first two go to a program that prints its words and its input, and what is due is written here by hand; the headers of
TCP are those of an operating system, in examples/data/."""
import concurrent.futures
import re
import shutil
import struct
import subprocess
import sys
import tempfile

from .counting import Checks
from .files import ESP4, ETHERNET, RTP, SIX, UDP, V4, Place, capture, told
from .program import EXAMPLES, built

check = Checks("traces")

TCP = "sp [16]; dp [16]; seq [32]; ack [32]; off [4]; res [4]; flags [8]; win [16]; sum [16]; urg [16];"
ECHO = "t [8]; c [8]; sum [16]; i [16]; n [16];"
V6 = "v [4]; tc [8]; fl [20]; len [16]; nh [8]; hl [8]; s1 [64]; s2 [64]; d1 [64]; d2 [64];"
CLIENT = [bytes.fromhex(it.split(":")[1]) for it in (EXAMPLES / "data" / "tcp-client.items").read_text().split("\n")[:3]]  # with 20, 12 and 12 octets of options
PING = bytes.fromhex("45000054123440004001ea767f0000017f000002" "0800f7ff00010002") + b"body"
PING6 = SIX[:6] + b"\x3a" + SIX[7:] + bytes.fromhex("8000123400050006") + b"body"
TCP6 = SIX[:6] + b"\x06" + SIX[7:] + CLIENT[1][20:]
COAP = SIX[:6] + b"\x11" + SIX[7:] + bytes.fromhex("9c40163300100000" "4101abcd77")  # to the port 5683
ARP = bytes(12) + b"\x08\x06" + bytes(28)
# What is cut by a profile: its fields, its CONTROL, the packets, the option --flow, and the items.
KINDS = {
    "tcp": (TCP, "", CLIENT, [], [(it[20:40], "") for it in CLIENT]),
    "four_tcp": (V4 + TCP, "CONTROL { tcp_options [6]; }", CLIENT, [], [(it[:40], " tcp_options=6:%02x" % (4 * count)) for it, count in zip(CLIENT, (20, 12, 12))]),
    "six_tcp": (V6 + TCP, "CONTROL { msn [8]; }", [PING, TCP6], [], [(TCP6[:60], " msn=8:00")]),
    "icmp": (ECHO, "", [PING, PING6], ["--flow", "1"], [(PING6[40:48], "")]),
    "four_icmp": (V4 + ECHO, "", [PING, PING6], [], [(PING[:28], "")]),
    "six_icmp": (V6 + ECHO, "", [PING, PING6], [], [(PING6[:48], "")]),
}
# What --cut takes of a capture of Ethernet: a span, and the octets that are cut, by hand, or what is said.
MIXED = [ARP, ETHERNET + CLIENT[0], ETHERNET + PING, bytes(12) + b"\x86\xdd" + COAP, ETHERNET + ESP4]
SPANS = {
    "transport+8:4:udp": [COAP[48:52]],
    "transport+8:4:port=5683": [COAP[48:52]],
    "transport+8:4:ipv6,udp port=5683": [COAP[48:52]],
    "network+0:-:tcp": [CLIENT[0][:60]],
    "network+0:-:icmp": [PING[:28]],
    "transport+0:8:icmp": [PING[20:28]],
    "transport+4:4:esp": [ESP4[24:28]],
    "link+12:2:tcp": [b"\x08\x00"],
    "12:2:tcp": [b"\x08\x00"],
    "transport+8:6:udp": "rohcfn: mixed: 5 of 5 packets have no octets 8 to 13 from transport with udp\n"
                         "rohcfn: mixed: no packet has octets 8 to 13 from transport with udp: it has 1 neither ipv4 nor ipv6, 1 ipv4 and tcp, 1 ipv4 and icmp, 1 ipv6 and udp, 1 ipv4 and esp\n",
    "transport+8": "rohcfn: --cut takes OFFSET:LENGTH[:WORDS], where OFFSET is a number of octets, behind link+, network+ or transport+, and LENGTH one, or - for all up to the payload\n",
    "0:0": "rohcfn: --cut takes from 1 octet on, up to octet 65535 of a packet\n",
    "0:4:sctp": "rohcfn: the words of --cut are ipv4, ipv6, tcp, udp, icmp, rtp, esp and port=N\n",
}
BARE = {
    "014007\n": "24:014007\n",
    "# a comment\n01 40 07 # another\r\n\n24:014008\n014009 x=4:10\n": "\n24:014007\n\n24:014008\n24:014009 x=4:10\n",
    "0140\n": "rohcfn: bare:1: 4 digits are 16 bits, and the top's header has 24\n",
    "014007\n\n01400\n": "rohcfn: bare:3: 5 digits are 20 bits, and the top's header has 24\n",
    "01407g\n": "rohcfn: bare:1: a bare item has hexadecimal digits, and then values as NAME=BITS\n",
}


def block(order, kind, body):
    """A block of pcapng."""
    body += bytes(-len(body) % 4)
    return struct.pack(order + "II", kind, 12 + len(body)) + body + struct.pack(order + "I", 12 + len(body))


def sectioned(order, frames, links=(1,)):
    """A section of pcapng, with frames in turn on interfaces of these links, in blocks of each kind that has packets; blocks without packets stand between."""
    found = block(order, 0x0A0D0D0A, struct.pack(order + "IHHq", 0x1A2B3C4D, 1, 0, -1))
    found += b"".join(block(order, 1, struct.pack(order + "HHI", it, 0, 0) + b"\x01\x00\x01\x00a\x00\x00\x00") for it in links) + block(order, 5, bytes(20))
    for at, (interface, frame) in enumerate(frames):
        if at % 3 == 0 or interface and at % 3 == 1:
            found += block(order, 6, struct.pack(order + "IIIII", interface, 0, at, len(frame), len(frame) + 9) + frame)
        elif at % 3 == 1:
            found += block(order, 3, struct.pack(order + "I", len(frame)) + frame)
        else:
            found += block(order, 2, struct.pack(order + "HHIIII", interface, 0, 0, at, len(frame), len(frame)) + frame) + block(order, 4, bytes(8))
    return found


def items(found):
    return "".join("%d:%s%s\n" % (8 * len(octets), octets.hex(), asked) for octets, asked in found)


def kinds(place):
    """Headers of TCP and ICMP, by what the profile's header is, in captures of both formats."""
    for name, (fields, control, packets, words, due) in KINDS.items():
        text = "%s { UNCOMPRESSED { %s } %s COMPRESSED { } }\n" % (name, fields, control)
        place.write(name + ".fn", text)
        raw = [(1, it) for it in packets]
        for kind, octets in (("pcap", capture(101, packets)), ("pcapng", sectioned("<", [(0, ARP), *raw], (1, 101))), ("both", sectioned(">", raw[:1], (1, 101)) + sectioned("<", [(0, it) for _, it in raw[1:]], (101,)))):
            place.write("capture", octets)
            seen = place.call("pack", name + ".fn", "--pcap", "capture", *words)
            check("%s in %s" % (name, kind), seen[:2] == (7, told("pack", "--top", name, items=items(due), profile=text)), seen)
            left = "headers of tcp have options, which are left out" in seen[2]
            check("%s in %s: options that nobody asks for are told" % (name, kind), left == (name in ("tcp", "six_tcp")), seen)


def spans(place):
    """What --cut takes, and what it says."""
    place.write("any.fn", "any { UNCOMPRESSED { a [VARIABLE]; } }")
    place.write("narrow.fn", "narrow { UNCOMPRESSED { a [24]; } }")
    for name, octets in (("mixed", capture(1, MIXED)), ("mixed", sectioned("<", [(0, it) for it in MIXED]))):
        place.write(name, octets)
        for span, due in SPANS.items():
            status, printed, said = place.call("pack", "any.fn", "--pcap", "mixed", "--cut", span)
            if isinstance(due, str):
                check("--cut %s is refused" % span, (status, printed, said) == (2, "", due), (status, said))
            else:
                check("--cut %s" % span, (status, printed) == (7, told("pack", "--top", "any", items=items([(it, "") for it in due]), profile="any { UNCOMPRESSED { a [VARIABLE]; } }")), (status, printed, said))
    seen = place.call("pack", "narrow.fn", "--pcap", "mixed", "--cut", "transport+8:4:udp")
    check("--cut and a header of another length", seen == (2, "", "rohcfn: --cut takes 4 octets, and narrow's header has 24 bits\n"), seen)
    place.write("usb", capture(189, [b"\x01\x02\x03\x04"]))
    seen = place.call("pack", "any.fn", "--pcap", "usb", "--cut", "link+1:2")
    check("--cut of a link that isn't known", seen[:2] == (7, told("pack", "--top", "any", items="16:0203\n", profile="any { UNCOMPRESSED { a [VARIABLE]; } }")), seen)
    place.write("rtp.fn", "rtp { UNCOMPRESSED { v [2]; p [1]; x [1]; c [4]; m [1]; t [7]; n [16]; ts [32]; s [32]; } }")
    place.write("others", capture(1, [ARP, ETHERNET + PING, ETHERNET + PING, ETHERNET + b"\x46" + PING[1:], ETHERNET + PING[:9] + b"\x59" + PING[10:], ETHERNET + PING[:6] + b"\x20" + PING[7:]]))
    seen = place.call("pack", "rtp.fn", "--pcap", "others")
    due = "others: no packet has a header of rtp: it has 2 ipv4 and icmp, 1 neither ipv4 nor ipv6, 1 ipv4 with options, 1 ipv4 and protocol 89, 1 fragments of ipv4\n"
    check("what a capture has", seen[0] == 2 and seen[2].endswith(due), seen)
    for name, octets, why in (("cut", sectioned("<", [(0, ETHERNET + PING)])[:-5], "the capture ends inside packet 1"), ("interface", sectioned("<", [(3, PING)]), "a packet of the capture names interface 3, and its section has 1"),
                              ("block", sectioned("<", []) + struct.pack("<II", 6, 13) + bytes(9), "a block of the capture has 13 octets"), ("no link", sectioned("<", [(0, PING)], (189,)), "packets of the link type 189 can't be read")):
        place.write(name, octets)
        seen = place.call("pack", "rtp.fn", "--pcap", name)
        check("pcapng that isn't whole: %s" % name, (seen[0], seen[1], seen[2].split("\n")[-2]) == (3, "", "rohcfn: %s: %s" % (name, why)), seen)


def bare(place):
    """Bare items and comments; without the option a line stays as it is."""
    profile = "probe { UNCOMPRESSED { v [8]; h [A * 2]; s [8]; } }\nopen { UNCOMPRESSED { s [VARIABLE]; } }"
    place.write("probe.fn", "A = 4;\n" + profile)
    for text, due in BARE.items():
        place.write("bare", text)
        for command in ("pack", "loss"):
            seen = place.call(command, "probe.fn", "--top", "probe", "--items", "bare", "--bare")
            is_right = seen == (2, "", due) if due.startswith("rohcfn") else seen[:2] == (7, told(command, "--top", "probe", items=due, profile="A = 4;\n" + profile))
            check("bare items of %s: %r" % (command, text), is_right, seen)
    for words, due in ((["--item", "0140", "--bare", "--top", "open"], "16:0140\n"), (["--item", "01407", "--bare", "--top", "open"], "20:014070\n"), (["--item", "014007", "--top", "open"], "014007\n")):
        seen = place.call("pack", "probe.fn", *words)
        check("a bare item: %s" % words, seen[:2] == (7, told("pack", "--top", "open", items=due, profile="A = 4;\n" + profile)), seen)
    seen = place.call("pack", "probe.fn", "--pcap", "bare", "--bare")
    check("--bare needs items", seen[0] == 2 and seen[2].startswith("error: --bare goes with --item or --items\n"), seen)


def in_pieces():
    """Calls on these traces, each of which takes pieces."""
    calls = [["pack", "--items", "good"], ["pack", "--items", "good", "--context", "--v2"], ["pack", "--items", "damaged"], ["pack", "--items", "good", "--from-context", "context"],
             ["unpack", "--packets", "packets", "--context"], ["unpack", "--packets", "packed", "--context"], ["unpack", "--packets", "short packets"],
             ["stats", "--items", "good"], ["stats", "--items", "damaged", "--items", "good"], ["stats", "--items", "damaged", "--all"], ["stats", "--items", "good", "--all"],
             ["stats", "--items", "damaged", "--by-item"], ["stats", "--items", "good", "--at-most", "77"], ["stats", "--items", "good", "--at-most", "78"],
             ["stats", "--items", "bad"], ["stats", "--items", "good", "--from-context", "context", "--v2"]]
    calls += [["fields", *more] for more in (["--items", "good", "--context"], ["--items", "damaged"], ["--items", "good", "--from-context", "context"], ["--packets", "packed"],
                                             ["--packets", "short packets", "--context", "--v2"])]
    calls += [["loss", "--items", it, *more] for it, more in (("good", []), ("good", ["--lost", "0"]), ("good", ["--lost=1", "--v2"]), ("good", ["--lost", "63", "--from-context", "context"]), ("damaged", []), ("late", []), ("bad", []))]
    every = [[it[0], "tcp.profile", *it[1:]] for it in calls] + [[it, "udp.profile", "--pcap", "udp", "--flow", flow] for it in ("pack", "fields", "stats", "loss") for flow in ("0", "3", "4")]
    every += [[it, "slip.fn", "--items", "good", "--diagnose"] for it in ("pack", "stats")]
    every += [["loss", it, "--items", name, *more] for it in ("probe.fn", "probe6.fn") for name, more in (("threes", []), ("threes", ["--lost", "2"]), ("jumps", ["--lost=40"]))]
    every += [["stats", "probe6.fn", "--items", "jumps"], ["pack", "udp.profile", "--pcap", "udp"], ["pack", "udp.profile", "--pcap", "udp", "--flow", "9"]]
    return every + [[*it, "--json"] for it in every if it[0] in ("fields", "stats", "loss")]


# What a copy has that takes less: a file, what stands there, and what stands there in its place. And what makes it go on one call after the other, and print by itself.
SMALL = (("front/parts.py", "BUNDLE = 4_194_304", "BUNDLE = 12_000"), ("front/pieces.py", "BLOCK = 1 << 20", "BLOCK = 6_000"), ("front/pieces.py", "FIRST = 1 << 8", "FIRST = 3_000"),
         ("front/pieces.py", "PRINTED = 1 << 24", "PRINTED = 20_000"), ("front/pieces.py", "SHARE = 1 << 18", "SHARE = 3_000"), ("front/pieces.py", "OBJECTS = 1 << 22", "OBJECTS = 20_000"),
         ("front/bundles.py", "BLOCK = 4096", "BLOCK = 5"), ("front/pieces.py", "SHOWN = 2", "SHOWN = 0"))
AHEAD, ALONE = ("front/pieces.py", "PROCESSORS = os.cpu_count() or 1", "PROCESSORS = 4"), (("front/pieces.py", "PROCESSORS = os.cpu_count() or 1", "PROCESSORS = 1"), ("front/streams.py", 'hasattr(os, "memfd_create")', "False"))


def less(place, name, changes):
    """bin/rohcfn of a copy that has these changes."""
    copy = place.root / name
    for it in ("bin", "front", "docs"):
        shutil.copytree(place.root / it, copy / it)
    (copy / "crates" / "rohcfn" / "out").mkdir(parents=True)
    (copy / "crates" / "rohcfn" / "out" / "rohcfn").symlink_to(built().resolve())
    for path, old, new in changes:
        text = (copy / path).read_text()
        check("the limits of the copy", text.count(old) == 1)
        (copy / path).write_text(text.replace(old, new))
    return copy / "bin" / "rohcfn"


def unwritten(place, command):
    """What is printed in pieces, where it can't be written: a full disk is told, and a reader that is gone is not."""
    for it in ("fields", "fields --json"):
        for end, said in ((">/dev/full", "error: writing the output failed\n"), ("| head -n 1", "")):
            call = 'set -o pipefail; "$0" %s tcp.profile --items good %s' % (it, end)
            ran = subprocess.run(["bash", "-c", call, command], cwd=place.files, env=place.environment, capture_output=True, timeout=120, check=False)
            seen = ran.returncode, ran.stdout.count(b"\n"), ran.stderr.decode()
            check("in pieces, and not written: %s" % call, seen == (3, 0 if said else 1, said), seen)


def pieces(place):
    """Traces that are longer than a bundle, in copies that take less: what is printed is what one call prints, which is tried by another copy."""
    small, alone = less(place, "small", [*SMALL, AHEAD]), less(place, "alone", [*SMALL, *ALONE])
    good = "".join((EXAMPLES / "data" / "tcp-client.items").read_text().splitlines(keepends=True)[:110])
    place.write("good", "\n" + good.replace("\n", "\r\n\n", 30))
    place.write("damaged", "\n\n".join(["480:" + "00" * 60 if at in (17, 50, 51, 90) else it for at, it in enumerate(good.splitlines())]))
    place.write("late", "\n".join(["480:" + "00" * 60 if at == 100 else it for at, it in enumerate(good.splitlines())]))
    place.write("bad", good + "no item\n" + good)
    place.write("first", good.split("\n")[0] + "\n")
    shutil.copy(EXAMPLES / "profiles" / "tcp.profile", place.files)
    place.write("packed", place.call("pack", "tcp.profile", "--items", "good", "--context")[1])
    place.write("context", place.call("pack", "tcp.profile", "--items", "first", "--context")[1])
    packets = (place.files / "packed").read_text().partition("=== context\n")[0] * 3
    place.write("packets", packets)
    half = packets.index("\n", len(packets) // 2)
    place.write("short packets", packets[:half] + "\n\n3:00" + packets[half:])
    shutil.copy(EXAMPLES / "tutorial" / "probe6.fn", place.files)  # (in the first pieces a field has no bits, and is without them in one format of its method)
    place.write("jumps", "".join("24:01%02x%02x\n" % (0x40 if at < 1500 else 0x41 + at % 2, at * 20 % 256) for at in range(2000)))
    shutil.copy(EXAMPLES / "probe.fn", place.files)  # (it has no checksum: after some losses packets are read wrong)
    place.write("threes", "".join("24:01%02x%02x\n" % (0x40 + (at == 1701), (at // 900 * 2 + 1) * at % 256) for at in range(2600)))
    udp = [bytes.fromhex(it) for it in (EXAMPLES / "data" / "udp-headers.hex").read_text().split()]
    shutil.copy(EXAMPLES / "profiles" / "udp.profile", place.files)
    place.write("udp", capture(1, [ETHERNET + it + b"\x00 body" for it in udp]))
    place.write("slip.fn", (EXAMPLES / "profiles" / "tcp.profile").read_text().replace("irregular", "iregular"))
    every = in_pieces()
    with concurrent.futures.ThreadPoolExecutor(max_workers=4) as pool:
        whole = pool.map(lambda words: place.call(*words, timeout=120), every)
        parted, singly = [pool.map(lambda words, it=it: place.call(*words, command=it, timeout=120), every) for it in (small, alone)]
        for words, due, *seen in zip(every, whole, parted, singly):
            check("in pieces: %s" % words, seen == [due, due], (seen, due))
    for it in (small, alone):
        unwritten(place, it)
    seen = place.call("pack", "tcp.profile", "--items", "bad", command=small)
    lines = seen[1].splitlines()
    check("a bad line ends the call, with its number in the whole", seen[0] == 1 and lines[-1] == "items:%d: I1 bad item" % (good.count("\n") + 1) and len(lines) > 50, lines[-1:])
    place.command = small
    seen = place.on_terminal("pack", "tcp.profile", "--items", "good")
    said = [int(it) for it in re.findall(r"^rohcfn: (\d+) items are done$", seen[1], re.MULTILINE)]
    check("a terminal is told how far the call is", seen[0] == 0 and len(said) > 2 and said == sorted(said) and said[-1] == good.count("\n"), said)
    for words in (["loss", "--items", "good", "--robust", "1"], ["pack", "--items", "good", "--robust", "1"], ["advise", "--items", "good"]):
        seen = place.call(words[0], "tcp.profile", *words[1:], command=small)
        check("no pieces: %s" % words, seen[0] in (0, 1), seen)


def main():
    trials = [(kinds, None), (spans, None), (bare, None), (pieces, built())]
    with tempfile.TemporaryDirectory() as folder, concurrent.futures.ThreadPoolExecutor(max_workers=4) as pool:
        places = [Place(folder, "a copy %d" % at, program) for at, (_, program) in enumerate(trials)]
        for it in [pool.submit(trial, place) for (trial, _), place in zip(trials, places)]:
            it.result()
    return check.status()


if __name__ == "__main__":
    sys.exit(main())
