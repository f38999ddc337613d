"""Through the built program: 2,000 sends and resets of 16 flows, drawn at random, on one line, and fewer of other profiles; and of 64 flows on the wide line. The octets and items must be those of the best fillings that a slow search over all fillings
finds (searching.py), each flow in a context of its own; they must be those of lines of one flow each; and from the octets `line --receive` must give the same items."""
import random
import sys

from . import program
from .roundtrip import items, line_of, sample

FLOWS = {"": 16, " --wide": 64}  # of the line, and of the wide one


def run(subject, words, part, text):
    return program.run(program.bundle(subject.words("line") + words, subject.profile, **{part: text}))


def octets(bits):
    return "".join("%02x" % int(bits[start:start + 8].ljust(8, "0"), 2) for start in range(0, len(bits), 8))


class Events:
    """Events with the octets and the item's line that are due for each; a send that has no filling is left out."""

    def __init__(self, subject, width, count, draw):
        self.subject, self.width, self.flows = subject, width, FLOWS[width]
        self.events, self.contexts = [], [{} for _ in range(self.flows)]
        headers, found = items(subject, draw), {}
        while len(self.events) < count:
            flow = draw.randrange(self.flows)
            if draw.randrange(20) == 0:
                self.contexts[flow] = {}
                self.events.append((flow, "reset %d\n" % flow, "%02x" % (self.flows + flow), ""))
                continue
            header, asked = draw.choice(headers)
            if "sn" in self.contexts[flow] and draw.randrange(2):
                header = format((int(self.contexts[flow]["sn"], 2) + draw.randrange(20)) % 256, "08b")
            key = (header, str(asked), str(sorted(self.contexts[flow].items())))
            if key not in found:
                found[key] = subject.fillings(self.contexts[flow], header, asked)[:1]
            for best in found[key]:
                self.contexts[flow].update(best.entries)
                line = line_of(header, asked)
                self.events.append((flow, "send %d %s\n" % (flow, line), "%02x%s" % (flow, octets(best.packed)), "%d %s\n" % (flow, line)))

    def trials(self):
        """What is run, and what is due."""
        yield self.sent(self.events)
        for flow in range(self.flows):
            yield self.sent([it for it in self.events if it[0] == flow])
        heard = "".join(it[3] for it in self.events)
        yield run(self.subject, self.width + " --receive", "octets", "".join(it[2] for it in self.events) + "\n"), (heard, 0)

    def sent(self, events):
        due = "".join(it[2] for it in events) + "\n" + "".join(it[3] for it in events)
        return run(self.subject, self.width, "events", "".join(it[1] for it in events)), (due, 0)


def main():
    draw, passed, failed = random.Random(5795), 0, 0
    for name, width, count in [("tick", "", 2000), ("opt", "", 400), ("seq", "", 400), ("wrap", "", 400), ("nest", "", 400), ("tick", " --wide", 1000), ("seq", " --wide", 400)]:
        for place, (found, due) in enumerate(Events(sample(name), width, count, draw).trials()):
            if found == due:
                passed += 1
            else:
                failed += 1
                print("%s%s, run %d: wrong" % (name, width, place))
    print("lines of flows: %d passed, %d failed" % (passed, failed))
    sys.exit(1 if failed else 0)


main()
