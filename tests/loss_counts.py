"""The tables of docs/LOSS.md. Some are counted over values (what a checksum misses), some measured through the program (windows, the stored headers, their healing). `loss_counts.py` prints them; loss.py
compares them with the page."""
import collections
import functools
import operator
import random
import sys

from examples import headers
from . import loss, program

CRCS = {3: (0x06, 0x07), 7: (0x79, 0x7f), 8: (0xe0, 0xff)}
WORDS = 1 << 16
HEADERS = 100  # of a counter
BEFORE = {"udp": "27.1", "rtp": "29.4", "udp6": "112.0", "esp6": "100.8"}
AFTER = (1, 2, 4, 8)  # lost packets after which healing is looked at
SOON = 8  # packets within which a receiver is right again
DRAWN = 80  # headers of IPv6
COUNTER = """counter
{
  UNCOMPRESSED { sn [16]; }
  COMPRESSED near { kind =:= '0' [1]; sn =:= lsb(%d, %d) [%d]; }
  COMPRESSED full { kind =:= '1' [1]; sn =:= irregular(16) [16]; }
}
"""
CHECK = " check =:= crc(%d, 0x%02x, 0x%02x, THIS.UVALUE, THIS.ULENGTH) [%d];"
PROBE = """probe
{
  UNCOMPRESSED { version =:= uncompressed_value(8, 1) [8]; hops [8]; sn [8]; }
  COMPRESSED same { kind =:= '0' [1]; hops =:= static [0]; sn =:= lsb(4, 1) [4];%s }
  COMPRESSED full { kind =:= '1' [1]; hops =:= irregular(8) [8]; sn =:= irregular(8) [8]; }
}
"""
BEGUN = """begun
{
  UNCOMPRESSED { sn [16]; }
  INITIAL { sn =:= uncompressed_value(16, 0); }
  COMPRESSED { sn =:= lsb(4, 0) [4];%s }
}
"""
PACED = """paced
{
  UNCOMPRESSED { sn [16]; id [16]; }
  CONTROL { distance [16]; ENFORCE(distance.UVALUE == (id.UVALUE - sn.UVALUE) %% 65536 && id.UVALUE == (distance.UVALUE + sn.UVALUE) %% 65536); }
  INITIAL { distance =:= uncompressed_value(16, 0); }
  COMPRESSED { sn =:= irregular(16) [16]; distance =:= %s [%d]; check =:= crc(8, 0xe0, 0xff, THIS.UVALUE, THIS.ULENGTH) [8]; }
}
"""
WINDOWS = [(3, 1), (4, 0), (4, 1), (4, 3), (4, 7), (4, 11), (6, 15)]


def markdown(rows):
    """A table of a page."""
    lines = ["| %s |" % " | ".join(map(str, row)) for row in rows]
    return "\n".join([lines[0], "|---" * len(rows[0]) + "|", *lines[1:]])


def share(part, whole):
    """A part in per cent."""
    found = "%.2f %%" % (100 * part / whole)
    return "none" if part == 0 else "all" if part == whole else "below 0.01 %" if found == "0.00 %" else found


# ---- windows


def reach(size, offset):
    """Up to how many lost packets in a row, and behind how many later ones, each packet of a counter is right."""
    profile = loss.Profile(COUNTER % (size, offset, size))
    packets, _ = loss.sent(profile, [headers.text(16, it % WORDS) for it in range(WORDS - 8, WORDS - 8 + HEADERS)], {})
    after = loss.contexts(packets, {})

    def holds(back, ahead):
        asked = [(after[place - back + ahead], packets[place]) for place in range(back + 1, len(packets) - ahead, 7)]
        return all(it.verdict == "right" for it in loss.all_read(profile, asked))

    return next(it for it in range(1, HEADERS) if not holds(it, 0)) - 1, next(it for it in range(1, HEADERS) if not holds(0, it + 1)) - 1


def windows():
    rows = [("`lsb(k, p)`", "takes steps", "lost in a row, at most", "late behind others, at most")]
    for size, offset in WINDOWS:
        rows.append(("`lsb(%d, %d)`" % (size, offset), "%d to %d" % (-offset, (1 << size) - offset - 1), *reach(size, offset)))
    return rows


# ---- checksums


def after_octet(size, register):
    """A register after eight bits that are all zero, by the steps of docs/NOTATION.md."""
    for _ in range(8):
        register = register >> 1 ^ (CRCS[size][0] if register & 1 else 0)
    return register


AFTER_OCTET = {size: bytes(after_octet(size, it) for it in range(256)) for size in CRCS}


def crc(size, begin, octets):
    """The register after the octets. Its bits and those of an octet meet one by one, and it has at most eight: so both can be put together first."""
    after = AFTER_OCTET[size]
    for octet in octets:
        begin = after[begin ^ octet]
    return begin


def bare(value):
    return value.to_bytes(2, "big")


def with_checksum(octets):
    """An IPv4 header with the checksum that follows from its other words: 65535 less their sum, where 65536 counts as 1."""
    octets[10:12] = bytes(2)
    total = sum(int.from_bytes(octets[it:it + 2], "big") for it in range(0, 20, 2))
    octets[10:12] = (WORDS - 1 - ((total - 1) % (WORDS - 1) + 1)).to_bytes(2, "big")
    return bytes(octets)


def in_header(value):
    """The first header of UDP of data/ with this identification."""
    octets = bytearray(first("udp"))
    octets[4:6] = value.to_bytes(2, "big")
    return with_checksum(octets)


def in_rtp(value):
    """The first header of RTP of data/ with this sequence number, where the identification and the timestamp, by a stride of 160, go on in step with it."""
    octets = bytearray(first("rtp"))
    steps = value - headers.number(octets, 30, 32)
    octets[4:6] = ((headers.number(octets, 4, 6) + steps) % WORDS).to_bytes(2, "big")
    octets[30:32] = value.to_bytes(2, "big")
    octets[32:36] = ((headers.number(octets, 32, 36) + 160 * steps) % (1 << 32)).to_bytes(4, "big")
    return with_checksum(octets)


@functools.cache
def first(kind):
    """The first header of data/ of a kind."""
    return headers.headers_of(kind, (program.EXAMPLES / "data" / (kind + "-headers.hex")).read_text().splitlines())[0]


@functools.cache
def shaped(shape):
    """The octets of all values."""
    return [shape(it) for it in range(WORDS)]


@functools.cache
def sums_of(size, shape):
    """The checksums of all values, an octet each."""
    return bytes(crc(size, CRCS[size][1], it) for it in shaped(shape))


def alike(one, other):
    """How many octets of two rows are the same."""
    return sum(map(operator.eq, one, other))


def missed(size, shape, distances):
    """How many of the wrong readings of a value, off by these distances either way, have the checksum of the right one."""
    sums = sums_of(size, shape)
    return sum(alike(sums, sums[step:] + sums[:step]) for step in distances), len(distances) * WORDS


def aliases(shape):
    """What is missed where a number is read off by 2^k, as `lsb` of k bits does just outside of its window, and by any multiple of it."""
    rows = [("off by", *("crc of %d bits" % size for size in CRCS))]
    for power in (3, 4, 5, 6, 7, 8):
        rows.append(("2^%d" % power, *(share(*missed(size, shape, [1 << power])) for size in CRCS)))
    rows.append(("1 to 15", *(share(*missed(size, shape, range(1, 16))) for size in CRCS)))
    return rows


def static_field():
    """What is missed where a `static` field of 8 or 16 bits is read as any other value."""
    rows = [("another value of", *("crc of %d bits" % size for size in CRCS))]
    for width in (8, 16):
        row = ["a field of %d bits" % width]
        for size in CRCS:
            found = collections.Counter(crc(size, CRCS[size][1], it.to_bytes(width // 8, "big")) for it in range(1 << width))
            row.append(share(sum(it * (it - 1) for it in found.values()), (1 << width) * ((1 << width) - 1)))
        rows.append(tuple(row))
    return rows


def beginning():
    """What a crc of 8 bits misses where the header comes back and a number that is in no header is off: with a constant to begin with, and with the number's low 8 bits."""
    rows = [("the number is off by", "begun with 0xff", "begun with its low 8 bits")]
    header = in_header(0x90f6)
    sums = [crc(8, it, header) for it in range(256)]
    for power in (4, 5, 6, 7, 8):
        step = (1 << power) % 256
        rows.append(("2^%d" % power, share(WORDS, WORDS), share(alike(sums, sums[step:] + sums[:step]), 256)))
    return rows


# ---- what begins anew


def refreshing():
    """How a packet of a format that is to refresh is read, by the encoding of a distance that stays: where nothing was heard before, and where another distance was."""
    rows = [("`distance` in the format", "nothing heard before", "another distance heard")]
    for encoding, size in (("static", 0), ("lsb(0, 0)", 0), ("lsb(4, 1)", 4), ("lsb(16, 0)", 16), ("irregular(16)", 16)):
        profile = loss.Profile(PACED % (encoding, size))
        (packet,), _ = loss.sent(profile, ["32:00100058"], {"distance": format(0x48, "016b")})
        found = loss.all_read(profile, [({}, packet), ({"distance": format(0x93, "016b")}, packet)])
        rows.append(("`%s`" % encoding, *(it.verdict for it in found)))
    return rows


def beginners():
    """How many of 128 headers of a counter are read right, refused and wrong by a receiver that heard nothing before, where INITIAL gives a reference."""
    rows = [("counter with INITIAL", "right", "refused", "wrong")]
    for name, check in (("no checksum", ""), ("crc of 3 bits", CHECK % (3, *CRCS[3], 3)), ("crc of 8 bits", CHECK % (8, *CRCS[8], 8))):
        profile = loss.Profile(BEGUN % check)
        packets, _ = loss.sent(profile, [headers.text(16, it) for it in range(128)], {})
        rows.append((name, *loss.counts(loss.all_read(profile, [({}, it) for it in packets]))[1:]))
    return rows


# ---- the example of README


def probe():
    """What is read of sixty headers of README's example whose hop count changes at each tenth, by the checksum of its format `same`."""
    items = ["24:01%02x%02x" % (0x40 if place // 10 % 2 == 0 else 0x3f, 7 + place) for place in range(60)]
    found = [loss.Losses(loss.Profile(PROBE % check), items, {}, 8) for check in ("", CHECK % (3, *CRCS[3], 3), CHECK % (8, *CRCS[8], 8))]
    rows = [("lost", "packets", "right", "refused, wrong: as it stands", "crc of 3 bits", "crc of 8 bits")]
    rows += [(*row[0][:3], *("%d, %d" % it[3:] for it in row)) for row in zip(*(it.by_lost()[1:] for it in found))]
    return rows + [("bits a header", "", "", *(loss.mean_of([it]) for it in found))]


# ---- the headers of data/


def weaker(text, few, more):
    """A profile whose formats of types 0 and 1 have a crc of few bits, and the others but `ir` one of more bits."""
    names, form = {}, ""
    lines = []
    for line in text.splitlines(keepends=True):
        if line.strip().startswith("COMPRESSED "):
            form = line.split()[1]
        if line == "    crc8;\n" and form != "ir":
            size = few if form.startswith(("pt_0", "pt_1")) and not form.endswith("far") else more
            names[size] = True
            line = "    crc%d;\n" % size
        lines.append(line)
    others = "".join("    crc%d =:= crc(%d, 0x%02x, 0x%02x, THIS.UVALUE, THIS.ULENGTH) [%d];\n" % (it, it, *CRCS[it], it) for it in sorted(names) if it != 8)
    return "".join(lines).replace("    crc8 =:= ", others + "    crc8 =:= ", 1)


def before_and_after(kind, mended):
    """For each number of lost packets what is read, by checksums of 3 and 7 bits, of 7 bits, and of 8."""
    found = [loss.flows(kind, loss.LOST, weaker(loss.profile_of(kind), *sizes), True) for sizes in ((3, 7), (7, 7))] + [mended]
    return compared([loss.joined(it) for it in found], found)


def compared(readings, flows):
    """What is read by three checksums, side by side. What is right is the same by all of them."""
    rows = [("lost", "packets", "right", "refused, wrong: crc of 3 or 7 bits", "of 7 bits", "of 8 bits")]
    rows += [(*row[2][:3], *("%d, %d" % it[3:] for it in row)) for row in zip(*(it[1:] for it in readings))]
    return rows + [("bits a header", "", "", *map(loss.mean_of, flows))]


def drawn_headers(kind):
    """Headers of IPv6 of one flow, by a fixed seed: the length is another one at each seventh, the traffic class or the hop limit at each thirtieth; the number goes on by one, and now and then by up to 40."""
    draw, count, length, hops, kept = random.Random(5225), 0, 0x58, 64, 0
    for place in range(DRAWN):
        count += draw.randrange(2, 41) if draw.randrange(20) == 0 else 1
        length = draw.randrange(16, 1400) if draw.randrange(7) == 0 else length
        hops = draw.choice([63, 64, 65]) if draw.randrange(30) == 0 else hops
        kept = draw.choice([0, 0x10, 0xb8]) if draw.randrange(30) == 0 else kept
        front = "6%02x00000%04x%02x%02x" % (kept, length, 50 if kind == "esp6" else 17, hops) + "20010db8%024x20010db8%024x" % (1, 2)
        if kind == "esp6":
            yield "384:%s00001234%08x" % (front, count)
        else:
            yield "384:%sc000138c%04x%04x msn=16:%04x" % (front, length, draw.randrange(1, WORDS), count)


def drawn(kind):
    """What is read of the drawn headers, by the checksums."""
    text, items = loss.profile_of(kind), list(drawn_headers(kind))
    found = [loss.Losses(loss.Profile(it), items, {}, loss.LOST, True) for it in (weaker(text, 3, 7), weaker(text, 7, 7), text)]
    return compared([it.by_lost() for it in found], [[it] for it in found])


def unread(losses, start, context):
    """The places and contexts of the packets from a place on that a receiver with this context can't read right. It keeps its context then. Once that is the sender's, all is right."""
    for place in range(start, len(losses.packets)):
        if context == losses.contexts[place]:
            return
        if loss.missed(losses.packets[place], context):
            yield place, tuple(sorted(context.items()))
        else:
            context.update(losses.packets[place].entries)


@functools.cache
def heard(losses, lost):
    """Of each receiver that lost so many packets and hears all others: the place where it begins, and the places and contexts of the packets that it can't read right."""
    return [(start, list(unread(losses, start, dict(losses.contexts[start - lost])))) for start in range(lost + 1, len(losses.packets))]


def outcomes(losses, lost):
    """What comes of each of these receivers."""
    found = heard(losses, lost)
    asked = sorted({it for _, bad in found for it in bad})
    verdicts = dict(zip(asked, (it.verdict for it in loss.all_read(losses.profile, [(dict(context), losses.packets[place]) for place, context in asked]))))
    for start, bad in found:
        if any(verdicts[it] == "wrong" for it in bad):
            yield "wrong"
        elif not bad:
            yield "at once"
        else:
            last = bad[-1][0]
            yield "never" if last + 1 == len(losses.packets) else "soon" if last - start < SOON else "late"


def lacking(mended):
    """Of the receivers that refuse the last packet of their flow, which uses don't serve in the first one that they refuse."""
    rows = [("profile", "uses", "receivers")]
    for kind in ("udp", "rtp"):
        found = collections.Counter()
        for losses in mended[kind]:
            bads = [bad for lost in AFTER for _, bad in heard(losses, lost) if bad and bad[-1][0] + 1 == len(losses.packets)]
            found.update(", ".join("`%s`" % it.path for it, _ in loss.missed(losses.packets[bad[0][0]], dict(bad[0][1]))) for bad in bads)
        rows += [(kind, *it) for it in found.most_common()]
    return rows


def healing(kind, flows):
    rows = [("lost", "receivers", "right at once", "after up to %d packets" % SOON, "after more", "refuse the last packet", "read one wrong")]
    for lost in AFTER:
        found = collections.Counter(it for losses in flows for it in outcomes(losses, lost))
        rows.append((lost, sum(found.values()), *(found[it] for it in ("at once", "soon", "late", "never", "wrong"))))
    return rows


def costs(mended):
    """Bits a header before a crc of 8 bits stood in each format, by the README or the comment of that time, and now."""
    rows = [("profile", "headers", "bits a header before", "now")]
    return rows + [(kind, sum(len(it.packets) for it in mended[kind]), before, loss.mean_of(mended[kind])) for kind, before in BEFORE.items()]


def main():
    mended = {kind: loss.flows(kind, loss.LOST, is_short=True) for kind in BEFORE}
    print("\n\n".join(tables(mended)))


def tables(mended):
    found = [probe(), beginners(), windows(), aliases(bare), aliases(in_header), aliases(in_rtp), static_field(), beginning(), refreshing()]
    found += [costs(mended)]
    found += [before_and_after(kind, mended[kind]) for kind in ("udp", "rtp")]
    found += [drawn(kind) for kind in ("udp6", "esp6")]
    found += [healing(kind, mended[kind]) for kind in ("udp", "rtp")]
    return [markdown(it) for it in [*found, lacking(mended)]]


if __name__ == "__main__":
    sys.exit(main())
