"""Puts a bundle together from what an order names."""
import contextlib
import itertools
import os
import re
import sys

from . import captures, cutting, inferred, notation, parts, pieces, terminal
from .bare import Bare
from .flows import Flows, TooLong
from .orders import LINES, ONE
from .commands import option
from .terminal import shown

FILTER = os.path.join(os.path.dirname(os.path.dirname(os.path.realpath(__file__))), "bin", "rohcfn")
FLOWS, WIDE = 16, 64  # of a line, and of the wide one or one of frames
EVENT = len("send 0 ")  # characters of an event before its item, or more
TEXT = 1 << 20  # octets of a profile; one that is longer is refused by its length alone (E04)
BLOCK = 4096  # items of a capture that are made at a time
TOP = re.compile(rb"(?:^| )--top[ =](\w+)")


def lines_given(order, bare):
    """The part of items or packets that the options give together. Of bare items it makes items."""
    texts = {}
    for name, value in order.lines:
        octets = parts.part_of(LINES[name], value) if name == LINES[name] else parts.line_of(option(name), value)
        octets = octets if bare is None else bare.items(octets, shown(value) if name == LINES[name] else option(name))
        texts[LINES[name]] = texts.get(LINES[name], b"") + parts.ended(octets)
    return texts


def blocks_given(order, bare):
    """The same in blocks of whole lines, as they are read."""
    for name, value in order.lines:
        if name != LINES[name]:
            octets = parts.line_of(option(name), value)
            yield parts.ended(octets if bare is None else bare.items(octets, option(name)))
            continue
        with parts.opened(value) as file:
            try:
                for octets, above in pieces.blocks(file.read, value, LINES[name]):
                    yield octets if bare is None else bare.items(octets, shown(value), above)
            except OSError as why:
                raise parts.unread(value, why) from None


def flows_of(order, cut, octets, file, see=None):
    """The flows of a capture that have what is cut; how many packets don't is told. Where their packets are only to be seen, none is kept."""
    chosen, name, what = order.get("flow"), shown(order.get("pcap")), shown(cut.words())
    number = None if chosen is None else int(chosen.lstrip("0")[:9] or "0")  # (no capture has so many flows that more digits tell)
    if order.command == "line":
        flows = Flows(cut, octets + EVENT, limit=WIDE if order.has("wide") or order.has("frames") else FLOWS)
    else:
        flows = Flows(cut, octets, number, see=see)
    flows.gather(cut.packets(file))
    if flows.left and see is None:
        terminal.says("%s: %d of %d packets have no %s" % (name, flows.left, flows.packets, what))
    if not flows.counts:
        raise parts.BadInput("%s: no packet has %s%s" % (name, ("a " if isinstance(cut, captures.Cut) else "") + what, ": it has " + flows.had() if flows.left else ""), 2)
    if order.command == "line" and len(flows.counts) > flows.limit:
        raise parts.BadInput("%s: %s flows, and a line has %d\n%s" % (name, flows.count(), flows.limit, flows.listed()), 2)
    if not flows.kept:
        raise parts.BadInput("%s: choose one flow by --flow\n%s" % (name, flows.listed()), 2)
    return flows


def kind_of(order, profile, top):
    """The kind of header that is cut out of packets."""
    fields, path = profile.fields(top, "UNCOMPRESSED"), shown(order.profile)
    if not fields or any(it.bits is None for it in fields):
        raise parts.BadInput("%s: the fields of %s's header have no constant lengths, so --pcap doesn't know what to cut; --cut says it" % (path, shown(top)), 2)
    kind = captures.kind_of([it.bits for it in fields])
    if kind is None:
        raise parts.BadInput("%s: %s's header has %d bits, and --pcap cuts none of that length; --cut cuts any" % (path, shown(top), sum(it.bits for it in fields)), 2)
    return kind


def cut_of(order, profile, top):
    """What is cut out of packets: what --cut says, or the kind of the top's header."""
    if not order.has("cut"):
        return captures.Cut(kind_of(order, profile, top))
    cut = cutting.Piece(order.get("cut"))
    lengths = [it.bits for it in profile.fields(top, "UNCOMPRESSED")]
    if lengths and None not in lengths and cut.octets is not None and sum(lengths) != 8 * cut.octets:
        raise parts.BadInput("--cut takes %d octets, and %s's header has %d bits" % (cut.octets, shown(top), sum(lengths)), 2)
    return cut


def captured(order, profile, top):
    """The part of items or events that a capture gives. Where that is more than a bundle, it is given in blocks, of a command that takes pieces."""
    asked, path = profile.asked(top), order.get("pcap")
    with refusals(path):
        cut = cut_of(order, profile, top)
        octets = inferred.octets_of(8 * (cut.octets or 20), asked)
        try:
            with parts.opened(path) as file:
                flows = flows_of(order, cut, octets, file)
        except TooLong:
            if not pieces.is_pieced(order):
                raise
            return {"items": streamed(order, cut, asked, octets)}
        say_options(path, cut, asked, sum(captures.options(it) > 0 for _, flow in flows.kept.values() for it in flow if "tcp" in it.layers))
        if order.command == "line":
            return {"events": lines(events(flows, cut, asked))}
        return {"items": lines(inferred.items_of(cut, asked, *[it for _, it in flows.kept.values()]))}


@contextlib.contextmanager
def refusals(path):
    """What is said where a capture can't be taken."""
    try:
        yield
    except OSError as why:
        raise parts.unread(path, why) from None
    except captures.BadCapture as why:
        raise parts.BadInput("%s: %s" % (shown(path), why), 3) from None
    except TooLong as why:
        raise parts.BadInput("%s: the headers make more than 4 MiB, about %d of them, and no such call takes more: pack, stats and loss take any number, in pieces, without --robust"
                             % (shown(path), why.args[0]), 2) from None
    except (inferred.NotInferred, cutting.BadSpan) as why:
        raise parts.BadInput(str(why), 2) from None


def streamed(order, cut, asked, octets):
    """Blocks of the items of a flow of a capture that is longer than a bundle. The capture is read twice: first for what is inferred of the whole flow."""
    path = order.get("pcap")
    if path == "-":
        raise parts.BadInput("standard input can be read once, and a capture with more than 4 MiB of items is read twice: give it as a file", 2)
    with refusals(path):
        watched, with_options = inferred.Watched(asked, cut.kind), [0]

        def see(found):
            watched.see(found)
            with_options[0] += "tcp" in found.layers and captures.options(found) > 0
        with parts.opened(path) as file:
            flows = flows_of(order, cut, octets, file, see)
        say_options(path, cut, asked, with_options[0])
        key = next(iter(flows.kept))
        with parts.opened(path) as file:
            flow = (it for it in cut.packets(file) if cut.header(it) is not None and cut.flow(it) == key)
            items = inferred.items(cut, watched, flow)
            while block := list(itertools.islice(items, BLOCK)):
                yield lines(block)


def say_options(path, cut, asked, count):
    """Says how many headers have options that are neither cut nor asked for."""
    if count and isinstance(cut, captures.Cut) and "tcp" in cut.kind and all(it.name != "tcp_options" for it in asked):
        terminal.says("%s: %d headers of tcp have options, which are left out" % (shown(path), count))


def lines(texts):
    return "".join(it + "\n" for it in texts).encode()


def events(flows, cut, asked):
    """An event for each header of a capture, in its order: it is sent on its flow."""
    waiting = [inferred.items_of(cut, asked, them) for _, them in flows.kept.values()]
    for at in flows.order:
        yield "send %d %s" % (at, next(waiting[at]))


def top_of(order, text):
    """The top that is named, or that of the text, with the profile as far as --pcap and --bare need it."""
    text = text.decode(errors="replace") if len(text) <= TEXT else ""
    top = order.get("top") if order.has("top") else notation.top_of(text) or "top"
    return top, notation.Profile(text) if order.has("pcap") or order.has("bare") else None


def bare_of(order, profile, top):
    """How bare items are read, where they are to be."""
    if not order.has("bare"):
        return None
    lengths = [it.bits for it in profile.fields(top, "UNCOMPRESSED")]
    return Bare(sum(lengths) if lengths and None not in lengths else None)


def call_of(order):
    """The words of the program, the bundle, and the profile's text with its top; and where the lines are more than a bundle takes, the pieces in its place."""
    text = parts.part_of("profile", order.profile)
    top, profile = top_of(order, text)
    found, more = {}, None
    if order.has("pcap"):
        found = captured(order, profile, top)
        if not isinstance(found.get("items", b""), bytes):
            more = pieces.grouped(found.pop("items"))
    elif pieces.is_pieced(order):
        found, more = lines_or_pieces(order, bare_of(order, profile, top), pieces.room(order, len(text)))
    else:
        found = lines_given(order, bare_of(order, profile, top))
    for name in ONE:
        if order.has(name):
            part = "context" if name == "from-context" else name
            found[part] = parts.part_of(part, order.get(name))
    where = order.profile, text, top, 0
    if more is not None:
        return pieces.Pieces(FILTER, order, top, found, text), more, where
    return ["--", order.command, "--top", top, *order.flags()], parts.bundle(found, text), where


def lines_or_pieces(order, bare, room):
    """The part of items or packets; or nothing, and blocks of it, where it has more octets than there is room for in one call."""
    given, first = blocks_given(order, bare), []
    for it in given:
        first.append(it)
        if sum(map(len, first)) > room:
            return {}, pieces.grouped(itertools.chain(first, given))
    return {LINES[order.lines[0][0]]: b"".join(first)}, None


def call_on_bundle(order):
    """The same for a bundle on standard input, which has the words where the order has none; and how many lines stand above its profile."""
    if sys.stdin is not None and sys.stdin.isatty():
        terminal.says("a bundle is awaited on standard input, up to its end (Ctrl-D); --help says more")
    bundle = parts.read("-")
    text, above = parts.part_in(bundle, "profile") or (b"", 0)
    if order.command is not None:
        return ["--", order.command, "--top", order.get("top"), *order.flags()], bundle, ("-", text, order.get("top"), above)
    named = TOP.search((parts.part_in(bundle, "words") or (b"", 0))[0])
    return [], bundle, ("-", text, named.group(1).decode() if named else "top", above)
