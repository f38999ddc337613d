"""A second prover: the certificate of the order of docs/FORMATS.md for a profile's normal form, or the line that says what is missing, slowly and apart from the program.

It goes by the rules of steps and the known bits of reading.py."""
from .reading import bounds, known_bits, LIMIT, parted, rule

READ = ("take", "up", "solve", "length C", "length U", "down")
WRITE = ("take", "ask", "down", "up", "solve", "length U", "length C", "choose")


class Missing(Exception):
    """There is no certificate, for the reason that the line gives."""


def steps_of(f, kind, name):
    """The steps of a kind on a field."""
    constraints = range(len(f.constraints))
    if kind == "take":
        return [("take", name), ("call", name)]
    if kind in ("up", "down"):
        return [("library", name, kind)]
    if kind == "solve":
        return [("solve", name, n) for n in constraints]
    if kind.startswith("length"):
        side = kind[-1]
        return [("length", name, side, "method")] + [("length", name, side, n) for n in constraints]
    return [(kind, name)]


def unlearnt(f, direction, known):
    """The sides that a complete plan has learnt and that aren't known, in field order."""
    for d in f.fields:
        is_due = d.is_called() or (d.name in f.listing if direction == "read" else d.part == "header")
        for side, tells in (("U", direction == "write"), ("C", direction == "read")):
            if (d.name, side + "V") not in known or tells and is_due and (d.name, "done") not in known:
                yield "%s %s" % (d.name, side)


def plan(methods, m, f, direction, version=1):
    """While something is wanted, the first step of the order that is enabled and gives something new."""
    order = [it for kind in (READ if direction == "read" else WRITE) for d in f.fields for it in steps_of(f, kind, d.name)]
    possible = [(step, found) for step in order for found in [rule(methods, f, direction, step, version)] if found]
    known, steps = {(it.name, slot) for it in f.fields if it.name not in f.listing for slot in ("CL", "CV")}, []
    while list(unlearnt(f, direction, known)):
        for step, (needs, gives, is_once) in possible:
            if needs <= known and not gives <= known and not (is_once and (step[1], "done") in known):
                break
        else:
            raise Missing("prove: P1 NoPlan %s %s %s %s" % (m.name, f.shown(), direction, " ".join(unlearnt(f, direction, known))))
        steps.append(step)
        known |= gives
    return steps


def equations(f, head):
    """The tests that the equations of a format with a number give, either way round: of a parameter, or of the reference of a field that is static there."""
    for it in f.constraints:
        if it[0] == "enforce" and it[1][0] == "==":
            for x, y in (it[1][1:], it[1][:0:-1]):
                if isinstance(x, tuple) and isinstance(y, int):
                    if head == "param" and x[0] == "parameter":
                        yield head, x[1], y
                    if head == "ref" and x[1] == "UVALUE" and x[0] in f.by_name and f.by_name[x[0]].library() == "static":
                        yield head, x[0], y


def parting(m, here, version):
    """The test of the rule for a set of formats, and the sets that go on."""
    bits = {n: known_bits(m.formats[n]) for n in here}
    least = min(m.formats[n].least() for n in here)
    for offset in sorted({o for n in here for o in bits[n] if o < least}):
        zeros, ones = [[n for n in here if bits[n].get(offset) != lost] for lost in (1, 0)]
        if len(zeros) < len(here) and len(ones) < len(here):
            if offset >= LIMIT["offset"]:
                raise Missing("prove: P3 Limit")
            return ("bit", offset), zeros, ones
    for head in ("param", "ref")[:version]:
        for test in [it for n in here for it in equations(m.formats[n], head)]:
            equal, other = parted(m, here, test)
            least, most = bounds(m, test)
            if least <= test[2] <= most and len(equal) < len(here):
                return test, equal, other
    raise Missing("prove: P2 NoTree %s %s %s" % (m.name, m.formats[here[0]].shown(), m.formats[here[1]].shown()))


def tree(m, version):
    """The nodes in preorder, from a stack of sets that are still to be parted."""
    nodes, sets = [], [list(range(len(m.formats)))]
    while sets:
        here = sets.pop()
        if len(nodes) == LIMIT["nodes"]:
            raise Missing("prove: P3 Limit")
        if len(here) < 2:
            nodes.append(("leaf", m.formats[here[0]].shown()) if here else ("none",))
        else:
            test, first, second = parting(m, here, version)
            nodes.append(test)
            sets += [second, first]
    return nodes


def certificate(methods, version):
    """The text of the certificate."""
    lines = [("rohcfn-certificate", version)]
    for m in methods:
        if m.formats:
            lines += [("method", m.name)] + tree(m, version)
            for f in m.formats:
                read, write = [plan(methods, m, f, it, version) for it in ("read", "write")]
                lines += [("format", f.shown()), ("read",), *read, ("write",), *write]
    text = "".join(" ".join(map(str, it)) + "\n" for it in lines + [("end",)])
    if len(text) > LIMIT["text"]:
        raise Missing("prove: P3 Limit")
    return text


def answer(methods, version=1):
    """What `prove` prints, and its status."""
    try:
        return certificate(methods, version), 0
    except Missing as line:
        return "%s\n" % line, 1
