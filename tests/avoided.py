"""Through the built program: what `why --items --not FORMAT` prints of runs of items, for each format of small profiles, and for each format of a method that is called inside. The slow search gives
the fillings of each item in the context that those before it leave, the best one first: so by which format it is packed, and whether the named format fits, too, and with how many bits. The reasons
that are told of the first item of a block are read by the second reading of `why` (reference/reasons.py). Names that lead to no format are refused."""
import random
import re
import sys

from . import roundtrip, why
from .counting import Checks
from .fields import printed
from .reference.searching import Search

HEAD = re.compile(r"format (\S+) items (\d+) others (\d+) refused (\d+)(?: without ([1-9]\d*))?")
BLOCK = re.compile(r"items ([1-9]\d*) first ([1-9]\d*) by (\w+|-)(?:: it fits with (\d+) bits, and comes later)?")
LENGTH = 8  # items of a run
RUNS = 3


class Packed:
    """An item of a run, with the context before it and its fillings there, the best one first."""

    def __init__(self, line, context, fillings):
        self.line, self.context, self.fillings = line, context, fillings


class Part:
    """What stands at a path inside a filling: its method, the values of its arguments, and its filling."""

    def __init__(self, method, arguments, filling):
        self.method, self.arguments, self.filling = method, arguments, filling


class Wanted:
    """A format that is asked for by its name, of the top or of the method that is called at a path."""

    def __init__(self, subject, path, name):
        self.subject, self.path, self.name = subject, path, name
        self.shown = ".".join(path + [name])

    def part(self, filling):
        """What stands at the path, where its method has the format."""
        part = Part(len(self.subject.methods) - 1, [], filling)
        for name in self.path:
            inner = part.filling.inner.get(name)
            if inner is None:
                return None
            _, method, arguments = part.filling.level.form.by_name[name].encoding
            part = Part(method, [part.filling.level.value(it) for it in arguments], inner)
        return part if self.index(part) is not None else None

    def names(self, part):
        return [it.shown() for it in self.subject.methods[part.method].formats]

    def index(self, part):
        names = self.names(part)
        return names.index(self.name) if self.name in names else None

    def has(self, filling):
        """Whether the filling has the format there."""
        part = self.part(filling)
        return part is not None and part.filling.index == self.index(part)

    def by(self, packed):
        """The best filling with the format, if there is one."""
        return next((it for it in packed.fillings if self.has(it)), None)


def runs(subject, start, draw):
    """Runs of items, each in the context that those before it left."""
    for _ in range(RUNS):
        context, run = dict(start), []
        for header, asked in draw.sample(every(subject), LENGTH):
            fillings = subject.fillings(context, header, asked)
            run.append(Packed(roundtrip.line_of(header, asked), context, fillings))
            if fillings:
                context = {**context, **dict(fillings[0].entries)}
        yield run


def every(subject):
    """Headers of the greatest length, and shorter ones, with values of the asked fields."""
    found = roundtrip.items(subject, random.Random(1))
    return found + [(header[:-1], asked) for header, asked in found[:LENGTH]]


def wanted(subject):
    """Each format of the top, and each of a method that a field calls, down to the second field."""
    top = len(subject.methods) - 1
    yield from (Wanted(subject, [], it.shown()) for it in subject.methods[top].formats)
    for path, method in sorted(set(called(subject, top, ()))):
        yield from (Wanted(subject, list(path), it.shown()) for it in subject.methods[method].formats)


def called(subject, method, path):
    """The paths below this one, of two fields at most, with the methods that are called there."""
    for form in subject.methods[method].formats if len(path) < 2 else ():
        for field in form.fields:
            if field.is_called():
                yield path + (field.name,), field.encoding[1]
                yield from called(subject, field.encoding[1], path + (field.name,))


def blocks(lines):
    """The blocks, each with the lines below its own."""
    found = []
    for line in lines:
        head = BLOCK.fullmatch(line)
        if head:
            found.append((head, []))
        elif found:
            found[-1][1].append(line)
        else:
            return None
    return found


def is_block(it, run, head, below):
    """Whether a block is true of its first item."""
    first = run[int(head[2]) - 1]
    part = it.part(first.fillings[0]) if first.fillings else None
    if part is None or it.names(part)[part.filling.index] != head[3] or it.has(first.fillings[0]):
        return False
    other = it.by(first)
    if head[4]:
        return other is not None and not below and int(head[4]) == len(other.packed)
    return is_out(it, first, part) and bool(below) and not wrong_with(it, first, part, below)


def is_out(it, first, part):
    """Whether the format fits neither the item nor, under its arguments, the part's header."""
    if not it.path:
        return it.by(first) is None
    search = Search(it.subject.methods, first.context, it.subject.initial)
    return it.by(first) is None or all(inner.index != it.index(part) for inner in search.inside(part.method, tuple(part.arguments), ".".join(it.path), part.filling.header))


def wrong_with(it, first, part, below):
    """What is wrong with the reasons by the second reading."""
    if it.path:
        return why.reads_inside(it.subject, first.context, ".".join(it.path), part.filling.header, below)
    return why.reads(it.subject, first.context, "items", first.line, below)


def is_told(it, run, lines, status):
    """Whether the lines are what is due of the format."""
    head, found = HEAD.fullmatch(lines[0]), blocks(lines[1:])
    if status or not head or found is None:
        return False
    packed = [one for one in run if one.fillings]
    there = [one for one in packed if it.part(one.fillings[0])]
    others = [one for one in there if not it.has(one.fillings[0])]
    due = (len(there) - len(others), len(others), len(run) - len(packed), len(packed) - len(there))
    counts, firsts = [int(one[1]) for one, _ in found], [int(one[2]) for one, _ in found]
    return (head[1] == it.shown and tuple(int(one or 0) for one in head.groups()[1:]) == due and sum(counts) == len(others) and len(set(firsts)) == len(firsts)
            and sorted(zip((-one for one in counts), firsts)) == list(zip((-one for one in counts), firsts))
            and is_later(it, run, others, found) and all(is_block(it, run, *one) for one in found))


def is_later(it, run, others, found):
    """Whether it is said of the items that fit, too, that they do: of the top's formats of all, of others in one block at most."""
    fit = [one for one in others if it.by(one)]
    later = [(int(one[1]), int(one[2])) for one, _ in found if one[4]]
    if it.path:
        return len(later) <= 1 and sum(count for count, _ in later) <= len(fit)
    return later == ([(len(fit), run.index(fit[0]) + 1)] if fit else [])


def asked(subject, start, run, name):
    """What is printed of the format of this name for the run, and the status."""
    return printed(subject.words("why") + " --items --not " + name, subject.profile, start, "items", [it.line for it in run])


def check_run(checks, subject, start, run):
    """Checks what is printed of each format for the run."""
    every_one = list(wanted(subject))
    for it in every_one:
        lines, status = asked(subject, start, run, it.shown)
        checks("%s not %s" % (subject.name, it.shown), is_told(it, run, lines, status), (subject.profile, start, [one.line for one in run], lines))
    for name in ("no_format_at_all", "no_field.at_all", *sorted({".".join(it.path + ["no_format_at_all"]) for it in every_one if it.path})):
        lines, status = asked(subject, start, run, name)
        checks("%s: no format" % subject.name, (lines, status) == (["words: N1 no such format"], 1), lines)
    for near in {bool(it.path): it.shown for it in every_one if len(it.name) > 3}.values():
        lines, status = asked(subject, start, run, near + "x")
        checks("%s: near" % subject.name, status == 1 and lines[0].startswith("words: N1 no such format, near are ") and near in lines[0].split(" near are ")[1].split(), lines)


def main():
    checks, draw = Checks("why --not"), random.Random(65)
    for name, contexts in roundtrip.CONTEXTS.items():
        for start in contexts:
            subject = roundtrip.sample(name)
            for run in runs(subject, start, draw):
                check_run(checks, subject, start, run)
    for subject, start in roundtrip.referring(draw):
        for run in runs(subject, start, draw):
            check_run(checks, subject, start, run)
    return checks.status()


if __name__ == "__main__":
    sys.exit(main())
