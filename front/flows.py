"""The flows of a capture: what is kept of them, and where that is too much for a call."""
import array

from .captures import flow_name
from .parts import BUNDLE

LISTED = 32  # flows whose names are shown
COUNTED = 65_536  # flows that are told apart
KINDS = 16  # kinds of packets that are named


class TooLong(Exception):
    """More headers than a bundle takes, which is how many."""


class Flows:
    """Goes over the packets of a capture, and keeps the headers of one flow, of each flow of a line, or of none where it isn't said which. `limit` is how many
    flows are kept, `chosen` the number of the one that is alone. Where there is `see`, that is shown the headers, and they aren't kept."""

    def __init__(self, cut, octets, chosen=None, limit=1, see=None):
        self.cut, self.octets, self.chosen, self.limit, self.see = cut, octets, chosen, limit, see
        self.counts, self.packets, self.left = {}, 0, 0
        self.others = {}  # how many packets of each kind have no such header
        self.kept, self.order = {}, array.array("B")
        self.is_full = False

    def gather(self, found):
        """Goes over the packets, up to the end or to one flow too many."""
        header, flow, others = self.cut.header, self.cut.flow, self.others
        for it in found:
            self.packets += 1
            if header(it) is None:
                self.left += 1
                kind = it.what or it.layers
                others[kind] = others.get(kind, 0) + 1
                continue
            key = flow(it)
            if key not in self.counts:
                if len(self.counts) == COUNTED:
                    self.is_full = True
                    return
                self.begin(key)
            self.counts[key] += 1
            if key in self.kept:
                self.keep(key, it)

    def begin(self, key):
        """A flow begins. Where no flow is chosen and there are more than are kept, nothing is."""
        number = len(self.counts)
        self.counts[key] = 0
        if self.chosen is not None:
            if number == self.chosen:
                self.kept[key] = len(self.kept), []
        elif number < self.limit:
            self.kept[key] = len(self.kept), []
        elif self.kept:
            self.kept, self.order = {}, array.array("B")

    def keep(self, key, found):
        if self.see is not None:
            self.see(found)
            return
        if self.octets * (len(self.order) + 1) > BUNDLE:
            raise TooLong(len(self.order))
        number, packets = self.kept[key]
        packets.append(found)
        self.order.append(number)

    def had(self):
        """What the packets have that have no such header, in words."""
        known = sorted(self.others.items(), key=lambda it: -it[1])[:KINDS]
        words = ["%d %s" % (count, kind if isinstance(kind, str) else " and ".join(kind)) for kind, count in known]
        more = len(self.others) - len(known)
        return ", ".join(words + ["and %d more kinds" % more] * (more > 0))

    def count(self):
        """How many flows there are, in words."""
        return "more than %d" % COUNTED if self.is_full else str(len(self.counts))

    def listed(self):
        """A line for each flow, and one for those that are too many."""
        first = list(self.counts.items())[:LISTED]
        lines = ["flow %d, %s: %d headers" % (at, flow_name(key), count) for at, (key, count) in enumerate(first)]
        more = len(self.counts) - LISTED
        return "\n".join(lines + ["and %s%d flows" % ("more than " if self.is_full else "", more)] * (more > 0))
