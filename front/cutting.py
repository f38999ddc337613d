"""Cuts octets out of the packets of a capture by their place: --cut OFFSET:LENGTH[:WORDS]."""
import collections
import re

from . import captures

BEGINS = ("link", "network", "transport")
SPAN = re.compile(r"(?:(link|network|transport)\+)?([0-9]{1,5}):([0-9]{1,5}|-)(?::(.*))?", re.ASCII | re.DOTALL)
PORT = re.compile(r"port=([0-9]{1,5})", re.ASCII)
GREATEST = 65_535  # the last octet of a packet that can be cut
NOTHING = "packets of another kind, or shorter ones"

# A packet with its whole frame, and where its headers begin in it: what follows the link, what follows IP, and what follows all that is read.
Framed = collections.namedtuple("Framed", "layers octets what frame network transport payload")


class BadSpan(Exception):
    """A value of --cut that says nothing."""


class Piece:
    """What is cut by a place: so many octets from the begin of a header on, or those up to the payload, of the packets that have what some words say."""

    def __init__(self, text):
        found = SPAN.fullmatch(text)
        if found is None:
            raise BadSpan("--cut takes OFFSET:LENGTH[:WORDS], where OFFSET is a number of octets, behind link+, network+ or transport+, and LENGTH one, or - for all up to the payload")
        begin, offset, length, words = found.groups()
        self.begin, self.offset, self.octets = begin or "link", int(offset), None if length == "-" else int(length)
        if self.octets == 0 or self.offset + (self.octets or 0) > GREATEST:
            raise BadSpan("--cut takes from 1 octet on, up to octet %d of a packet" % GREATEST)
        self.layers, self.ports, self.said = set(), set(), words or ""
        for word in re.split("[ ,]+", self.said.strip(" ,")) if self.said.strip(" ,") else ():
            self.take(word)
        self.kind, self.parted = tuple(it for it in captures.LAYERS if it in self.layers), True

    def take(self, word):
        """Takes a word that says which packets are meant."""
        port = PORT.fullmatch(word)
        if word in captures.LAYERS:
            self.layers.add(word)
        elif port is not None:
            self.ports.add(int(port.group(1)))
        else:
            raise BadSpan("the words of --cut are %s and port=N" % ", ".join(captures.LAYERS))

    def words(self):
        """What is cut, in words."""
        which = "octets %d to %s from %s" % (self.offset, "the payload" if self.octets is None else self.offset + self.octets - 1, self.begin)
        return which + (" with %s" % self.said if self.said else "")

    def packets(self, file):
        looked_at = max(captures.LOOKED_AT, 512 + self.offset + (self.octets or 0))
        for strip, run in captures.runs(captures.frames(file, looked_at), any_link=True):
            for frame in run:
                yield self.framed(frame, strip(frame))

    def framed(self, frame, octets):
        """A packet whose frame carries octets of IP, or none."""
        found = captures.packet(octets)
        network = len(frame) - len(octets) if octets else None
        transport = network + captures.OCTETS[found.layers[0]] if found.layers else None
        return Framed(found.layers, found.octets, found.what, frame, network, transport, self.payload(found, network))

    def payload(self, found, network):
        """Where what is behind the headers that are read begins."""
        if not found.layers:
            return None
        return network + len(found.octets) + (captures.options(found) if "tcp" in found.layers else 0)

    def header(self, found):
        """The octets that are cut out of a packet, or None where it isn't meant or lacks them."""
        begin = {"link": 0, "network": found.network, "transport": found.transport}[self.begin]
        if begin is None or not self.layers <= set(found.layers) or not self.is_of_ports(found):
            return None
        start = begin + self.offset
        end = found.payload if self.octets is None else start + self.octets
        return found.frame[start:end] if end is not None and start < end <= len(found.frame) else None

    def is_of_ports(self, found):
        """Whether one of the packet's ports is one of those that are meant, if any are."""
        if not self.ports:
            return True
        layer = next((it for it in found.layers if it in ("tcp", "udp")), None)
        return layer is not None and not self.ports.isdisjoint(captures.part(found, layer, at, at + 2) for at in (0, 2))

    def flow(self, found):
        if not found.layers:
            return b""
        return captures.flow_of(found, any(it in captures.PARTED for it in found.layers))
