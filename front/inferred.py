"""Makes items of the headers of a flow: the header's bits, and the values of the asked fields, inferred from all headers of the flow.

- `msn` is RTP's sequence number, or ESP's, or else counts the headers of the flow;
- `ip_id_behaviour` is what IPv4's identification does: 0 goes on, 1 goes on with its two octets exchanged, 2 any, 3 always zero;
- `udp_checksum_used` is whether there is a UDP checksum;
- `tcp_options` is how many octets of options stand behind the TCP header;
- `ts_stride` is the greatest common divisor of the steps of RTP's timestamps, 1 where they are all one."""
import math

from .captures import options, part

SEQUENTIAL, SWAPPED, RANDOM, ZERO = range(4)
STEP = 256  # identifications that go on by less than this count
KNOWN = ("msn", "ip_id_behaviour", "ip_id_behavior", "udp_checksum_used", "tcp_options", "ts_stride")
OF_PACKETS = ("udp_checksum_used", "tcp_options")  # what each packet tells by itself
WIDEST = 65_536  # bits of a text of bits


class NotInferred(Exception):
    """An asked value that isn't known here."""


class Watched:
    """What is inferred for the asked fields of a flow: it sees each packet, in their order, and then knows the values for each."""

    def __init__(self, asked, kind):
        self.asked, self.kind = asked, kind
        self.names = {"ip_id_behaviour" if it.name == "ip_id_behavior" else it.name for it in asked}
        self.last, self.greatest, self.step = {}, dict.fromkeys(self.names, 0), 0
        self.counted = [it for it in OF_PACKETS if it in self.names]
        self.has_ids, self.has_times = "ip_id_behaviour" in self.names, "ts_stride" in self.names
        self.numbered = next((it for it in ("rtp", "esp") if it in kind), None)  # the layer with a sequence number
        self.has_id, self.goes_on, self.goes_on_swapped = False, True, True

    def see(self, found):
        for name in self.counted:
            self.greatest[name] = max(self.greatest[name], self.of_packet(name, found))
        if self.has_ids:
            self.see_id(having(found, "ipv4", "ip_id_behaviour", 4, 6))
        if self.has_times:
            self.see_time(having(found, "rtp", "ts_stride", 4, 8))
        if self.numbered is not None and "msn" in self.names:
            having(found, self.numbered, "msn", 0, 0)

    def see_id(self, number):
        """Whether identifications go on by little, and whether they do with their two octets exchanged."""
        swapped, before = number % 256 * 256 + number // 256, self.last.get("id")
        if before is not None:
            self.goes_on &= (number - before[0]) % 2**16 < STEP
            self.goes_on_swapped &= (swapped - before[1]) % 2**16 < STEP
        self.has_id |= number != 0
        self.last["id"] = number, swapped

    def see_time(self, time):
        """The greatest common divisor of the steps, forward or back, of timestamps."""
        step = (time - self.last.get("time", time)) % 2**32
        self.step, self.last["time"] = math.gcd(self.step, min(step, 2**32 - step)), time

    def behaviour(self):
        """What the identifications do."""
        if not self.has_id:
            return ZERO
        return SEQUENTIAL if self.goes_on else SWAPPED if self.goes_on_swapped else RANDOM

    def of_packet(self, name, found):
        """A value that one packet tells."""
        if name == "udp_checksum_used":
            return int(having(found, "udp", name, 6, 8) != 0)
        having(found, "tcp", name, 0, 0)
        return options(found)

    def of_flow(self, name):
        """A value that is one for the flow, or the greatest of those of its packets."""
        if name in ("ip_id_behaviour", "ip_id_behavior"):
            return self.behaviour()
        return (self.step or 1) if name == "ts_stride" else self.greatest[name]

    def judge(self):
        """Refuses an asked field that isn't known, or that has too few bits for its values."""
        for field in self.asked:
            if field.name not in KNOWN:
                raise NotInferred("--pcap can't infer %s: of an asked field it knows msn, ip_id_behaviour, udp_checksum_used, tcp_options and ts_stride alone" % field.name)
            if field.name != "msn" and self.of_flow(field.name) >= 2**field.bits:
                raise NotInferred("--pcap infers %d for %s, which has %d bits" % (self.of_flow(field.name), field.name, field.bits))

    def words(self):
        """For each asked field what gives its word in an item, from the place of a packet in the flow and the packet."""
        return [self.word(it) for it in self.asked]

    def word(self, field):
        begin = " %s=" % field.name
        if field.name == "msn":
            return lambda place, found: begin + text(field.bits, self.sequence(place, found) % 2**field.bits)
        if field.name in OF_PACKETS:
            return lambda _, found: begin + text(field.bits, self.of_packet(field.name, found))
        whole = begin + text(field.bits, self.of_flow(field.name))
        return lambda *_: whole

    def sequence(self, place, found):
        """The master sequence number of a packet."""
        if self.numbered is None:
            return place
        return part(found, "rtp", 2, 4) if self.numbered == "rtp" else part(found, "esp", 4, 8)


def having(found, layer, name, start, end):
    """The number of some octets of a layer that a packet has to have."""
    if layer not in found.layers:
        raise NotInferred("--pcap can't infer %s: the packets have no %s" % (name, layer))
    return part(found, layer, start, end)


def text(bits, value):
    """A number as the text of so many bits."""
    octets = (bits + 7) // 8
    return "%d:%s" % (bits, "%0*x" % (2 * octets, value << 8 * octets - bits) if octets else "")


def octets_of(header_bits, asked):
    """The octets of the line of an item; of asked fields of lengths that can't be it says so."""
    for field in asked:
        if not 0 <= field.bits <= WIDEST:
            raise NotInferred("--pcap can't infer %s: it has %d bits, and no item says so many" % (field.name, field.bits))
    lengths = [len(text(header_bits, 0)), *[len(field.name) + 2 + len(text(field.bits, 0)) for field in asked]]
    return sum(lengths) + 1


def items(cut, watched, flow):
    """The items of a flow's packets, one after the other, once all of them were seen."""
    watched.judge()
    words = watched.words()
    for place, found in enumerate(flow):
        octets = cut.header(found)
        yield "%d:%s%s" % (8 * len(octets), octets.hex(), "".join([it(place, found) for it in words]))


def items_of(cut, asked, flow):
    """The same of a flow that nobody saw."""
    watched = Watched(asked, cut.kind)
    watched.judge()
    for it in flow:
        watched.see(it)
    return items(cut, watched, flow)
