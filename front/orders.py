"""What the words of a call ask for, by the table of words."""
import re

from . import commands
from .commands import option
from .terminal import shown

LINES = {"item": "items", "items": "items", "packet": "packets", "packets": "packets"}  # the part to which an option of lines gives some
PACKED, READ = ("item", "items", "pcap"), ("packet", "packets")  # what gives items, and what packets
ONE = ("from-context", "certificate", "events", "octets")  # options with a file that is a part
EITHER = ("fields", "why")  # commands that take items or packets
LOST = re.compile("[0-9]|[1-5][0-9]|6[0-3]")  # what --lost and --robust take
FLOW = re.compile("[0-9]+", re.ASCII)


class Usage(Exception):
    """Words that ask for nothing."""


class Order:
    """What the words ask for: the command, the file of the profile, and the value of each option that is there; a flag's value is True. Of options of lines all
    are kept in their order."""

    def __init__(self, table, command):
        self.table, self.command, self.profile = table, command, None
        self.options, self.lines = {}, []
        self.valued = {it.name for it in (*table.flags, *table.files) if it.value}
        self.plain = {it.name for it in (*table.flags, *table.files) if not it.value} - self.valued
        self.own = [it.name for it in table.flags if it.name not in LINES]  # options of the program itself, but the one that has another meaning with files

    def take(self, name, value):
        """Takes an option. Those of lines may come several times."""
        if name in LINES:
            self.lines.append((name, value))
        elif name in self.options:
            raise Usage("%s stands twice" % option(name))
        self.options[name] = value

    def has(self, name):
        return name in self.options

    def get(self, name):
        return self.options.get(name)

    def takes_bundle(self):
        """Whether the bundle is on standard input: no file is named, and a fault of its profile is to be shown."""
        files = [it for it in self.valued if it not in self.own and self.has(it)]
        return self.has("diagnose") and self.profile is None and not files and (self.command is None or self.has("top"))

    def known(self):
        """The options that the command takes."""
        return {it.name for files in (False, True) for it in self.table.of(self.command, files)}

    def flags(self):
        """The flags that go to the program. Which part there is tells that items are meant, or octets."""
        given = [it for it in self.table.of(self.command) if it.name in self.own and it.name != "top" and (self.has(it.name) or it.name == "receive" and self.has("octets"))]
        meant = ["--items"] if self.command in EITHER and any(map(self.has, PACKED)) else []
        return ["%s=%s" % (option(it.name), self.get(it.name)) if it.value else option(it.name) for it in given] + meant


def order_of(words):
    """What the words ask for. Where `--diagnose` stands alone, the bundle has the program's words."""
    alone = words == ["--diagnose"]
    order, waiting = Order(commands.table(), None if alone else words[0]), iter(words if alone else words[1:])
    for word in waiting:
        written, equals, value = word.partition("=")
        name = written[2:] if written.startswith("--") else None
        if name in order.valued:
            value = value if equals else next(waiting, None)
            if value is None:
                raise Usage("%s needs a value" % written)
            order.take(name, value)
        elif name in order.plain and not equals:
            order.take(name, True)
        elif order.profile is None and (word == "-" or not word.startswith("-")):
            order.profile = word
        elif order.has("context") and order.profile is not None and not word.startswith("-"):
            raise Usage("unexpected argument '%s' found; --context has no value, --from-context FILE gives the context to begin with" % shown(word))
        else:
            raise Usage("unexpected argument '%s' found" % shown(word))
    if order.command is not None:
        judge(order)
    return order


def judge(order):
    """Refuses what the command doesn't take, and asks for what it needs."""
    known = order.known()
    for name in sorted(order.options):
        if name not in known:
            raise Usage("%s is no option of %s" % (option(name), order.command))
    for name in ("lost", "robust"):
        if order.has(name) and not LOST.fullmatch(order.get(name)):
            raise Usage("invalid value '%s' for '%s <N>': a number from 0 to 63 is needed" % (shown(order.get(name)), option(name)))
    if order.takes_bundle():
        return
    if order.command == "why" and order.has("robust") and any(map(order.has, READ)):
        raise Usage("--robust goes with items: packets are read and not sent")
    if order.has("frames") and order.has("wide"):
        raise Usage("--frames has 64 flows, and goes without --wide")
    if order.command == "line" and order.has("robust") and (not order.has("frames") or order.has("octets") or order.has("receive")):
        raise Usage("--robust goes with --frames, where events are sent")
    if order.profile is None:
        raise Usage("the file of a profile is needed")
    judge_parts(order)
    if order.has("flow") and not (order.has("pcap") and FLOW.fullmatch(order.get("flow"))):
        raise Usage("--flow goes with --pcap, and is a number from 0")
    if order.has("cut") and not order.has("pcap"):
        raise Usage("--cut goes with --pcap")
    if order.has("bare") and not order.has("item") and not order.has("items"):
        raise Usage("--bare goes with --item or --items")
    if order.has("receive") and not order.has("octets"):
        raise Usage("--receive needs --octets")
    paths = [order.profile, *map(order.get, (*ONE, "pcap")), *[it for name, it in order.lines if name == LINES[name]]]
    if paths.count("-") > 1:
        raise Usage("standard input can be one file alone")


def judge_parts(order):
    """Asks for the items, packets, events or octets that the command needs, and refuses two of them that don't go together."""
    needed = order.table.commands[order.command].needs
    given = [it for it in needed if order.has(it)]
    if needed and not given:
        raise Usage("%s needs one of %s" % (order.command, ", ".join(map(option, needed))))
    both = [next((it for it in kind if it in given), None) for kind in (PACKED, READ)]
    apart = both if order.command in EITHER and all(both) else given
    if len(apart) > 1 and ("pcap" in given or apart is both or order.command == "line"):
        raise Usage("%s and %s don't go together" % (option(apart[0]), option(apart[1])))
