"""Reads captures of the formats pcap and pcapng, and cuts the headers of IPv4, IPv6, TCP, UDP, ICMP, RTP and ESP out of their packets, one packet after the other.

It doesn't know other links than LINKS, options of IPv4, extension headers of IPv6, fragments, and of RTP contributing sources and the extension. Options of TCP
are counted, and belong to no header here."""
import collections
import itertools
import struct

FORMS = {b"\xd4\xc3\xb2\xa1": "<", b"\xa1\xb2\xc3\xd4": ">", b"\x4d\x3c\xb2\xa1": "<", b"\xa1\xb2\x3c\x4d": ">"}
SECTION, INTERFACE, OLD_PACKET, SIMPLE_PACKET, ENHANCED_PACKET = b"\x0a\x0d\x0d\x0a", 1, 2, 3, 6  # blocks of pcapng
ORDERS = {b"\x4d\x3c\x2b\x1a": "<", b"\x1a\x2b\x3c\x4d": ">"}
FILE_OCTETS, RECORD_OCTETS = 24, 16
CHUNK = 1 << 20  # octets that are read at a time
LOOKED_AT = 512  # octets of a packet: link, tags and headers
INTERFACES = 65_536  # of a section of pcapng
ETHERNET, RAW = (1,), (12, 14, 101, 228, 229)
LOOPBACK, COOKED, COOKED_2 = (0, 108), (113,), (276,)
LINKS = ETHERNET + RAW + LOOPBACK + COOKED + COOKED_2
TAGS = (b"\x81\x00", b"\x88\xa8")
TYPES = (b"\x08\x00", b"\x86\xdd")
TCP, UDP, ESP, ICMP = 6, 17, 50, (1, 58)
EXTENSIONS = (0, 43, 44, 60, 135)  # headers of IPv6 between it and what it carries
CONTROL_PACKETS = range(192, 224)  # the second octet of RTCP, which is no RTP

# The lengths of the fields of each layer in bits.
LAYERS = {
    "ipv4": (4, 4, 8, 16, 16, 1, 1, 1, 13, 8, 8, 16, 32, 32),
    "ipv6": (4, 8, 20, 16, 8, 8, 64, 64, 64, 64),
    "tcp": (16, 16, 32, 32, 4, 4, 1, 1, 1, 1, 1, 1, 1, 1, 16, 16, 16),
    "udp": (16, 16, 16, 16),
    "icmp": (8, 8, 16, 16, 16),
    "rtp": (2, 1, 1, 4, 1, 7, 16, 32, 32),
    "esp": (32, 32),
}
CARRIED = [(), ("udp",), ("udp", "rtp"), ("esp",), ("tcp",), ("icmp",)]
WHOLE = [(it, *more) for it in ("ipv4", "ipv6") for more in CARRIED]  # (a packet begins with a header of IP)
KINDS = WHOLE + [("udp",), ("udp", "rtp"), ("rtp",), ("esp",), ("tcp",), ("icmp",)]
OCTETS = {name: sum(lengths) // 8 for name, lengths in LAYERS.items()}


def places(layers):
    """Where each layer of a packet begins and ends."""
    ending = list(itertools.accumulate(OCTETS[it] for it in layers))
    return dict(zip(layers, zip([0, *ending], ending)))


PLACES = {it: places(it) for it in WHOLE}

# The names of its layers, and the octets of their headers; where it has none that are known, what it has is said in words.
Packet = collections.namedtuple("Packet", "layers octets what", defaults=[None])
NO_IP = Packet((), b"", "neither ipv4 nor ipv6")


class BadCapture(Exception):
    """A file that can't be read as a capture."""


def frames(file, looked_at=LOOKED_AT):
    """The runs of packets of a capture that have one link: the link, and the first octets of each packet, as they are read."""
    head = file.read(FILE_OCTETS)
    form = FORMS.get(head[:4])
    if head[:4] == SECTION and len(head) == FILE_OCTETS:
        return ((link, (it for _, it in run)) for link, run in itertools.groupby(blocks(file, head, looked_at), lambda it: it[0]))
    if form is None or len(head) < FILE_OCTETS:
        raise BadCapture("this is no capture of the format pcap or pcapng")
    link = struct.unpack(form + "20xI", head)[0] & 0xFFFF
    return [(link, records(file, struct.Struct(form + "8xI4x").unpack_from, looked_at))]


def records(file, length_at, looked_at):
    """The first octets of each packet of the format pcap."""
    count, rest = 0, b""
    while read := file.read(CHUNK):
        octets, place, end = rest + read, 0, len(rest) + len(read)
        while end - place >= RECORD_OCTETS:
            begin = place + RECORD_OCTETS
            after = begin + length_at(octets, place)[0]
            if after > end:
                if after - place < CHUNK:
                    break
                octets, end = octets[:begin + looked_at] + beyond(file, after - end, looked_at - (end - begin), count), begin + looked_at
                after = min(after, end)
            count += 1
            yield octets[begin:min(after, begin + looked_at)]
            place = after
        rest = octets[place:end]
    if rest:
        raise ends_inside(count)


def ends_inside(count):
    return BadCapture("the capture ends inside packet %d" % (count + 1))


def beyond(file, left, wanted, count):
    """Reads so many octets, and gives the first of them, as many as are wanted."""
    first = b""
    while left:
        octets = file.read(min(left, CHUNK))
        if not octets:
            raise ends_inside(count)
        if len(first) < wanted:
            first += octets[:wanted - len(first)]
        left -= len(octets)
    return first


def blocks(file, head, looked_at):
    """For each packet of the format pcapng its link and its first octets. `head` is the begin of the file, which is that of a section."""
    count, links = 0, []
    while head:
        if len(head) < 12:
            raise ends_inside(count)
        if head[:4] == SECTION:
            order, links = ORDERS.get(head[8:12]), []
            if order is None:
                raise BadCapture("a section of the capture begins with no order of octets")
            unpack = {it: struct.Struct(order + it).unpack_from for it in ("I", "II", "IIIII", "HxxI", "H")}
        kind, length = unpack["II"](head)
        if length < 12 or length % 4:
            raise BadCapture("a block of the capture has %d octets" % length)
        body = head[8:] + beyond(file, max(0, length - len(head)), looked_at + 32, count)
        if kind == INTERFACE and len(links) < INTERFACES:
            links.append(unpack["HxxI"](body) if len(body) >= 8 else (0, 0))
        elif (found := packet_of(kind, body, length - 12, unpack, links)) is not None:
            count += 1
            yield found[0], found[1][:looked_at]
        head = file.read(12)


def packet_of(kind, body, octets, unpack, links):
    """The link and the octets of the packet in a block whose body has so many octets, or None where it has none."""
    if kind == ENHANCED_PACKET and octets >= 20:
        interface, begin, length = unpack["I"](body)[0], 20, unpack["IIIII"](body)[3]
    elif kind == OLD_PACKET and octets >= 20:
        interface, begin, length = unpack["H"](body)[0], 20, unpack["IIIII"](body)[3]
    elif kind == SIMPLE_PACKET and octets >= 4:
        interface, begin, length = 0, 4, unpack["I"](body)[0]
        if links and links[0][1]:
            length = min(length, links[0][1])
    else:
        return None
    if interface >= len(links):
        raise BadCapture("a packet of the capture names interface %d, and its section has %d" % (interface, len(links)))
    return links[interface][0], body[begin:begin + min(length, octets - begin)]


def number(octets, start, end):
    """The number of some octets."""
    return int.from_bytes(octets[start:end], "big")


def of_ethernet(frame):
    """What a frame of Ethernet carries, where that may be an IP packet."""
    place = 12
    while frame[place:place + 2] in TAGS:
        place += 4
    return frame[place + 2:] if frame[place:place + 2] in TYPES else b""


def carried(link):
    """What gives that of a frame of a link, or None where the link isn't known."""
    if link in RAW:
        return lambda frame: frame
    if link in LOOPBACK:
        return lambda frame: frame[4:]
    if link in COOKED:
        return lambda frame: frame[16:] if frame[14:16] in TYPES else b""
    if link in COOKED_2:
        return lambda frame: frame[20:] if frame[:2] in TYPES else b""
    return of_ethernet if link in ETHERNET else None


def is_rtp(octets, start):
    """Whether what a UDP datagram carries looks like RTP: version 2, no extension, no contributing source, and none of RTCP's types."""
    return len(octets) >= start + 12 and octets[start] & 0xDF == 0x80 and octets[start + 1] not in CONTROL_PACKETS


def packet(octets):
    """The headers of an IP packet, or in words what it is."""
    count = len(octets)
    if count >= 20 and octets[0] >> 4 == 4:
        if octets[0] != 0x45:
            return Packet((), b"", "ipv4 with options")
        if octets[6] & 0x3F or octets[7]:
            return Packet((), b"", "fragments of ipv4")
        name, protocol, end = "ipv4", octets[9], 20
    elif count >= 40 and octets[0] >> 4 == 6:
        name, protocol, end = "ipv6", octets[6], 40
    else:
        return NO_IP
    layers, what = (name,), None
    if protocol == UDP and count >= end + 8:
        layers, end = (name, "udp"), end + 8
        if is_rtp(octets, end):
            layers, end = (name, "udp", "rtp"), end + 12
    elif protocol == TCP and count >= end + 20:
        layers, end = (name, "tcp"), end + 20
    elif protocol in ICMP and count >= end + 8:
        layers, end = (name, "icmp"), end + 8
    elif protocol == ESP and count >= end + 8:
        layers, end = (name, "esp"), end + 8
    elif name == "ipv6" and protocol in EXTENSIONS:
        what = "ipv6 with extension headers"
    else:
        what = "%s and protocol %d" % (name, protocol)
    return Packet(layers, octets[:end], what)


def packets(file):
    """The headers of each packet of a capture."""
    for strip, run in runs(frames(file)):
        yield from map(packet, map(strip, run))


def runs(found, any_link=False):
    """What gives that which the link of a run of packets carries, and their frames. A link that isn't known carries nothing, and a capture with no other one isn't
    read, unless that is said."""
    known = {}
    for link, run in found:
        known[link] = carried(link)
        yield known[link] or nothing, run
    if known and not any_link and not any(known.values()):
        raise BadCapture("packets of the link type %s can't be read" % " and ".join(map(str, sorted(known))))


def nothing(_):
    """What a frame carries of whose link nothing is known."""
    return b""


def ends(lengths):
    """The places at which fields of these lengths end."""
    return set(itertools.accumulate(lengths))


def bits_of(kind):
    """The length of a kind of header."""
    return 8 * sum(OCTETS[it] for it in kind)


def kind_of(lengths):
    """The kind of a header with fields of these lengths: of those that are as long, the one whose fields end at the most similar places. None where none is."""
    due, bits = ends(lengths), sum(lengths)
    def strangeness(kind):
        return len(due ^ ends([it for name in kind for it in LAYERS[name]]))
    return min((it for it in KINDS if bits_of(it) == bits), key=strangeness, default=None)


class Cut:
    """What is cut out of packets for a kind of header: its octets, and those that tell its flow."""

    def __init__(self, kind):
        self.kind, self.octets, self.spans = kind, bits_of(kind) // 8, {}
        for layers, found in PLACES.items():
            if all(it in found for it in kind):
                self.spans[layers] = found[kind[0]][0], found[kind[-1]][1]
        self.parted = any(it in PARTED for it in kind)

    def words(self):
        """What is cut, in words."""
        return "header of " + " and ".join(self.kind)

    def packets(self, file):
        return packets(file)

    def header(self, found):
        """The octets of the header in a packet, or None where it lacks one of the layers."""
        span = self.spans.get(found.layers)
        return None if span is None else found.octets[span[0]:span[1]]

    def flow(self, found):
        return flow_of(found, self.parted)


PARTED = ("tcp", "udp", "rtp", "esp")  # layers whose first four octets tell a flow: the ports, or the index


def flow_of(found, parted):
    """What the packets of one flow have in common: the protocol, the addresses, and the ports of TCP and UDP or the index of ESP where these count."""
    octets = found.octets
    if found.layers[0] == "ipv4":
        return octets[9:10] + octets[12:24 if parted else 20]
    return octets[6:7] + octets[8:44 if parted else 40]


def part(found, layer, start, end):
    """The number of some octets of a layer of a packet."""
    begin = PLACES[found.layers][layer][0]
    return number(found.octets, begin + start, begin + end)


def options(found):
    """How many octets of options stand behind the TCP header of a packet."""
    return max(0, (part(found, "tcp", 12, 13) >> 4) * 4 - OCTETS["tcp"])


def address(octets):
    """The text of an address."""
    if len(octets) == 4:
        return ".".join(map(str, octets))
    return "[%s]" % ":".join("%x" % number(octets, at, at + 2) for at in range(0, 16, 2))


def flow_name(flow):
    """The addresses of a flow, with the ports of TCP and UDP, the index of ESP or the protocol."""
    if not flow:
        return "packets that are no whole ones of IP"
    protocol, octets = flow[0], 4 if len(flow) < 33 else 16
    source, destination, more = address(flow[1:1 + octets]), address(flow[1 + octets:1 + 2 * octets]), flow[1 + 2 * octets:]
    if not more:
        return "%s to %s, protocol %d" % (source, destination, protocol)
    if protocol in (TCP, UDP):
        return "%s:%d to %s:%d" % (source, number(more, 0, 2), destination, number(more, 2, 4))
    return "%s to %s, index %08x" % (source, destination, number(more, 0, 4))
