"""Writes the report: `PROFILE [OPTION ..] -o FILE`. Before these words stands the number of a stream that is the caller's folder. docs/USAGE.md shows its use."""
import os
import sys

from .. import bundles, commands, parts, streams
from ..__main__ import ran
from ..orders import PACKED, Usage, order_of
from ..terminal import shown
from . import page, program

LOST = "8"  # packets in a row, where none is said
ALONE = ("top", "v2", "certificate")  # options without items


def parted(words, table):
    """The file to be written, and the words without it. What the other commands take and this one doesn't is refused."""
    rest, path, waiting = [], None, iter(words)
    known = table.taken["report"]
    for word in waiting:
        if word == "-o":
            if path is not None:
                raise Usage("-o stands twice")
            path = next(waiting, None)
            if path is None:
                raise Usage("-o needs a value")
            continue
        if word.startswith("--") and word[2:].partition("=")[0] not in known:
            raise Usage("unexpected argument '%s' found" % shown(word))
        rest.append(word)
        if word.startswith("--") and "=" not in word and any(it.value and it.name == word[2:] for it in (*table.flags, *table.files)):
            rest += [it for it in [next(waiting, None)] if it is not None]
    if path is None:
        raise Usage("-o FILE is needed: the page to be written")
    return path, rest


def ordered(words):
    """What the words ask for: as those of `advise`, which takes items and packets that may be lost, or where no items are named of `check`."""
    has_items = any(it.partition("=")[0] in map(commands.option, PACKED) for it in words)
    for it in words if not has_items else ():
        if it.startswith("--") and it[2:].partition("=")[0] not in ALONE:
            raise Usage("%s goes with --item, --items or --pcap" % it.partition("=")[0])
    return order_of(["advise" if has_items else "check", *words]), has_items


def written(path, text):
    """Writes the page."""
    octets = text.encode("utf-8", "replace")
    if path == "-":
        fault = streams.fault_in(octets) if sys.stdout is not None else OSError(0, "it is closed")
        if fault is not None:
            raise parts.BadInput("standard output: %s" % fault.strerror, 3)
        return
    try:
        with open(path, "wb") as file:
            file.write(octets)
    except OSError as why:
        raise parts.BadInput("%s: %s" % (shown(path), why.strerror), 3) from None


def answer(words):
    """Makes the page; the status."""
    path, rest = parted(words, commands.table())
    order, has_items = ordered(rest)
    _, bundle, (name, octets, top, _) = bundles.call_of(order)
    text, lost = octets.decode(errors="replace"), int(order.get("lost") or LOST)
    called = program.Program(top, bundle, ["--v2"] if order.has("v2") else [])
    told = program.told(called, lost, has_items)
    lines = [line for it in program.of_kind(told.get("prove", []), "certificate") for line in it["lines"]]
    if order.has("certificate") and lines:
        lines = parts.part_in(bundle, "certificate")[0].decode().split("\n")
        lines = [it.removesuffix("\r") for it in lines if it.strip("\r")]
    written(path, page.page(told, os.path.basename(name), top, text, lost, lines, called.of_copy))
    return 0


def main(folder, *words):
    return ran(folder, lambda: answer(list(words)))


if __name__ == "__main__":
    sys.exit(main(*sys.argv[1:]))
