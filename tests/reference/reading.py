"""A second reading of certificates: their text (docs/FORMATS.md) and when one is valid (docs/DEFINITIONS.md, Certificates), slowly and apart from the program.

A profile is given as its normal form, written out by hand for the sample profiles in samples.py. Expressions are a number, `("parameter", name)`,
`(subject, attribute)` with `THIS` or a field's name, and `(operator, left, right)`."""

LIMIT = {"word": (1 << 64) - 1, "nodes": 4096, "depth": 128, "offset": 8192, "steps": 2048, "text": 1 << 20, "candidates": 65536, "packed": 8192, "choice": 16}


class Field:
    def __init__(self, name, part, encoding=None, u=(0, 64), c=(0, 0), asked=False):
        self.name, self.part, self.encoding, self.u, self.c, self.asked = name, part, encoding, u, c, asked

    def library(self):
        return self.encoding[0] if self.encoding and self.encoding[0] != "call" else None

    def is_called(self):
        return bool(self.encoding) and self.encoding[0] == "call"


class Format:
    """Fields in field order, the names that are listed, and constraints by number: `("bracket", field, side, lengths)` or `("enforce", condition)`."""

    def __init__(self, name, fields, listing, constraints):
        self.name, self.fields, self.listing, self.constraints = name, fields, listing, constraints
        self.by_name = {it.name: it for it in fields}

    def shown(self):
        return self.name or "-"

    def most(self, side):
        return sum(self.by_name[it].c[1] for it in self.listing) if side == "C" else sum(it.u[1] for it in self.fields if it.part == "header")

    def least(self):
        return sum(self.by_name[it].c[0] for it in self.listing)


class Method:
    def __init__(self, name, parameters, formats):
        self.name, self.parameters, self.formats = name, parameters, formats


# ---- the text


class Fault(Exception):
    pass


def number(word):
    if not word.isascii() or not word.isdigit() or (word[0] == "0" and word != "0"):
        raise Fault("K1 bad word")
    return int(word)


def constant(word):
    value = -number(word[1:]) if word.startswith("-") else number(word)
    if word == "-0":
        raise Fault("K1 bad word")
    if not -(1 << 127) <= value < 1 << 127:
        raise Fault("K3 above limits")
    return value


def named(things, name, of):
    for i, it in enumerate(things):
        if of(it) == name:
            return i
    raise Fault("K2 unknown name")


NODES = {"bit": 1, "param": 2, "ref": 2, "leaf": 1, "none": 0}
STEPS = {"take": 1, "call": 1, "library": 2, "length": 3, "solve": 2, "choose": 1, "ask": 1}


class Reader:
    """Reads line by line; `entries` has, for each method that is named, its tree and its formats' plans, by their indices. The version is that of the first line."""

    def __init__(self, methods):
        self.version, self.methods, self.entries, self.stage, self.method, self.format, self.open = 1, methods, {}, "version", -1, -1, []

    def line(self, words):
        head, rest = words[0], words[1:]
        if self.stage == "version" and words in (["rohcfn-certificate", "1"], ["rohcfn-certificate", "2"]):
            self.version, self.stage = int(words[1]), "between"
        elif head == "method" and len(rest) == 1:
            self.begin_method(rest[0])
        elif head == "format" and len(rest) == 1:
            self.begin_format(rest[0])
        elif words == ["read"]:
            self.want(self.stage == "head")
            self.stage = "read"
        elif words == ["write"]:
            self.want(self.stage == "read")
            self.stage = "write"
        elif words == ["end"]:
            self.want(self.stage in ("between", "formats", "write"))
            self.stage, self.method = "end", -1
        elif NODES.get(head) == len(rest) and (head != "ref" or self.version == 2):
            self.node(head, rest)
        elif STEPS.get(head) == len(rest):
            self.step(head, rest)
        else:
            raise Fault("K1 bad word")

    def want(self, is_so):
        if not is_so:
            raise Fault("K1 bad word")

    def begin_method(self, name):
        self.known_word(name)
        k = named([it if it.formats else Method("", [], []) for it in self.methods], name, lambda it: it.name)
        self.want(self.stage in ("between", "formats", "write") and k > self.method)
        self.method, self.format, self.stage, self.open = k, -1, "tree", [1]
        self.entries[k] = ([], {})

    def begin_format(self, name):
        self.known_word(name)
        self.want(self.method >= 0)
        n = named(self.methods[self.method].formats, name, Format.shown)
        self.want(self.stage in ("formats", "write") and n > self.format)
        self.format, self.stage = n, "head"
        self.entries[self.method][1][n] = ([], [])

    def known_word(self, name):
        self.want(bool(name))

    def node(self, head, rest):
        values = [number(rest[0])] if head == "bit" else [rest[0], constant(rest[1])] if head in ("param", "ref") else list(rest)
        if head == "bit" and values[0] >= LIMIT["offset"]:
            raise Fault("K3 above limits")
        self.want(self.method >= 0)
        m = self.methods[self.method]
        if head == "param":
            named(list(m.parameters), values[0], lambda it: it)
        if head == "ref":
            named([it for it in m.formats[0].fields if it.part != "local"], values[0], lambda it: it.name)
        if head == "leaf":
            values[0] = named(m.formats, values[0], Format.shown)
        self.want(self.stage == "tree")
        tree, depth = self.entries[self.method][0], self.open.pop()
        if len(tree) == LIMIT["nodes"] or depth > LIMIT["depth"]:
            raise Fault("K3 above limits")
        tree.append((head, *values))
        if head in ("bit", "param", "ref"):
            self.open += [depth + 1, depth + 1]
        if not self.open:
            self.stage = "formats"

    def step(self, head, rest):
        rest = list(rest)
        if head == "library":
            self.want(rest[1] in ("up", "down"))
        if head == "length":
            self.want(rest[1] in ("U", "C"))
        if head == "solve" or head == "length" and rest[2] != "method":
            rest[-1] = number(rest[-1])
            if rest[-1] >= 1 << 127:
                raise Fault("K3 above limits")
        self.want(self.stage in ("head", "read", "write"))
        f = self.methods[self.method].formats[self.format]
        rest[0] = f.fields[named(f.fields, rest[0], lambda it: it.name)].name
        if isinstance(rest[-1], int) and rest[-1] >= len(f.constraints):
            raise Fault("K2 unknown name")
        self.want(self.stage != "head")
        plan = self.entries[self.method][1][self.format][self.stage == "write"]
        if len(plan) == LIMIT["steps"]:
            raise Fault("K3 above limits")
        plan.append((head, *rest))


def read(methods, text):
    """The version and the entries of a text, or the line of its first fault."""
    if len(text.encode()) > LIMIT["text"]:
        raise Fault("certificate:1: K3 above limits")
    reader, lines = Reader(methods), text.split("\n")
    lines = lines[:-1] if lines[-1] == "" else lines
    for i, line in enumerate(lines):
        line = line[:-1] if line.endswith("\r") and i < text.count("\n") else line
        if not line:
            continue
        try:
            reader.line(line.split(" "))
        except Fault as fault:
            raise Fault("certificate:%d: %s" % (i + 1, fault)) from None
    if reader.stage != "end":
        raise Fault("certificate:%d: K1 bad word" % (len(lines) + 1))
    return reader.version, reader.entries


# ---- plans


def attribute(side, measure):
    return {"UL": "ULENGTH", "CL": "CLENGTH", "UV": "UVALUE", "CV": "CVALUE"}[side + measure]


def inputs(f, e):
    """The slots that an expression needs."""
    if isinstance(e, int) or e[0] == "parameter":
        return set()
    if len(e) == 3:
        return inputs(f, e[1]) | inputs(f, e[2])
    slot = e[1][0] + ("L" if e[1].endswith("LENGTH") else "V")
    if e[0] != "THIS":
        return {(e[0], slot)}
    return {(it.name, slot) for it in f.fields if it.part == "header"} if slot[0] == "U" else {(it, slot) for it in f.listing}


def all_inputs(f, es):
    return set().union(*[inputs(f, it) for it in es])


def equated(constraint, left):
    """What a condition says that the attribute equals, either way round; the right side first."""
    if constraint[0] != "enforce" or constraint[1][0] != "==":
        return None
    _, a, b = constraint[1]
    return b if a == left else a if b == left else None


def remainder(constraint, d):
    """The e and the d of a condition `(f.UVALUE + e) % c == d`, either way round and the sum in either order, where c is above all values that the field may have.
    Of a condition that is so both ways round the left side counts."""
    if constraint[0] != "enforce" or constraint[1][0] != "==":
        return None
    for x, y in (constraint[1][1:], constraint[1][:0:-1]):
        if isinstance(x, tuple) and x[0] == "%" and isinstance(x[1], tuple) and x[1][0] == "+" and isinstance(x[2], int):
            _, (_, a, b), c = x
            for value, more in ((a, b), (b, a)):
                if value == (d.name, "UVALUE"):
                    return (more, y) if 1 << d.u[1] <= c else None
    return None


def length_needs(f, d, side):
    method, args = d.encoding[0], d.encoding[1:]
    by_first = {"U": ("irregular", "uncompressed_value"), "C": ("irregular", "compressed_value", "lsb", "crc")}
    return inputs(f, args[0]) if method in by_first[side] else set()


def library_needs(f, d, way):
    method, args = d.encoding[0], d.encoding[1:]
    if way == "up":
        return {"irregular": {(d.name, "CV")}, "lsb": {(d.name, "CV")} | all_inputs(f, args), "uncompressed_value": all_inputs(f, args)}.get(method, set()) if method in ("irregular", "lsb", "uncompressed_value") else set()
    if method == "irregular":
        return {(d.name, "UV")}
    if method == "lsb":
        return {(d.name, "UV")} | inputs(f, args[0])
    return all_inputs(f, args) if method in ("compressed_value", "crc") else set()


def choice(f, d):
    if d.part == "header" or d.is_called() or d.asked:
        return None
    size = d.encoding[1] if d.library() == "irregular" and isinstance(d.encoding[1], int) else None
    for it in f.constraints:
        if size is None and it[:3] == ("bracket", d.name, "U") and len(it[3]) == 1 and isinstance(it[3][0], int):
            size = it[3][0]
    return size if size is not None and 0 <= size <= LIMIT["choice"] else None


def before(names, name):
    return names[: names.index(name)] if name in names else []


def rule(methods, f, direction, step, version):
    """What a step needs and gives, and whether it is once for its field; None where it is never enabled. `done` is the fact that a field was taken or called."""
    head, d = step[0], f.by_name[step[1]]
    headers = [it.name for it in f.fields if it.part == "header"]
    if head == "take":
        order, length, value = (f.listing, "CL", "CV") if direction == "read" else (headers, "UL", "UV")
        if d.is_called() or d.name not in order:
            return None
        return {(d.name, length)} | {(it, "done") for it in before(order, d.name)}, {(d.name, value), (d.name, "done")}, True
    if head == "call":
        if not d.is_called():
            return None
        needs = all_inputs(f, d.encoding[2])
        if direction == "read" and d.name in f.listing:
            needs |= {(it, "done") for it in before(f.listing, d.name)}
        if direction == "write" and d.part == "header":
            needs |= {(it, "done") for it in before(headers, d.name)}
        elif direction == "write" and max(it.most("U") for it in methods[d.encoding[1]].formats) > 0:
            needs |= {(d.name, "UV")}
        return needs, {(d.name, it) for it in ("UL", "UV", "CL", "CV", "done")}, True
    if head == "library" and d.library():
        side = "U" if step[2] == "up" else "C"
        return library_needs(f, d, step[2]), {(d.name, side + "L"), (d.name, side + "V")}, False
    if head == "length" and step[3] == "method" and d.library():
        return length_needs(f, d, step[2]), {(d.name, step[2] + "L")}, False
    if head == "length" and step[3] != "method":
        k = f.constraints[step[3]]
        is_bracket = k[:3] == ("bracket", d.name, step[2]) and len(k[3]) == 1
        e = k[3][0] if is_bracket else equated(k, (d.name, attribute(step[2], "L")))
        return None if e is None else (inputs(f, e), {(d.name, step[2] + "L")}, False)
    if head == "solve":
        e = equated(f.constraints[step[2]], (d.name, "UVALUE"))
        es = remainder(f.constraints[step[2]], d) if e is None and version == 2 else None if e is None else [e]
        return None if es is None else ({(d.name, "UL")} | all_inputs(f, es), {(d.name, "UV")}, False)
    if direction == "write" and head == "choose" and choice(f, d) is not None or direction == "write" and head == "ask" and d.asked:
        return set(), {(d.name, "UL"), (d.name, "UV")}, False
    return None


def plan_fault(methods, f, direction, plan, version):
    known = {(it.name, slot) for it in f.fields if it.name not in f.listing for slot in ("CL", "CV")}
    for i, step in enumerate(plan):
        found = rule(methods, f, direction, step, version)
        if found is None or not found[0] <= known or found[2] and (step[1], "done") in known:
            return "V2", "step %d" % i
        known |= found[1]
    for d in f.fields:
        is_due = d.is_called() or (d.name in f.listing if direction == "read" else d.part == "header")
        for side, tells in (("U", direction == "write"), ("C", direction == "read")):
            if (d.name, side + "V") not in known or tells and is_due and (d.name, "done") not in known:
                return "V3", "%s %s" % (d.name, side)
    return None


# ---- trees


def known_bits(f):
    at, bits = 0, {}
    for name in f.listing:
        d = f.by_name[name]
        if d.library() == "compressed_value" and all(isinstance(it, int) for it in d.encoding[1:]) and 0 <= d.encoding[1] <= 64 and 0 <= d.encoding[2] < 1 << d.encoding[1]:
            size, value = d.encoding[1:]
            bits.update({at + i: value >> size - 1 - i & 1 for i in range(size)})
            at += size
        elif d.c[0] == d.c[1]:
            at += d.c[0]
        else:
            break
    return bits


def compared(f, left, operator):
    """The numbers that an expression is compared with, either way round."""
    found = []
    for it in f.constraints:
        if it[0] == "enforce" and it[1][0] == operator:
            _, a, b = it[1]
            found += [y for x, y in ((a, b), (b, a)) if x == left and isinstance(y, int)][:1]
    return found


def bounds(m, node):
    """The numbers that a test may name: those of a parameter's range, or those of a value of up to 64 bits."""
    return m.parameters[node[1]] if node[0] == "param" else (0, LIMIT["word"])


def parted(m, here, node):
    """The formats that go on where a parameter, or the reference of a field, has the test's number, and where it hasn't. A reference tells only of formats in which the field is static."""
    head, name, c = node
    left = ("parameter", name) if head == "param" else (name, "UVALUE")
    told = [n for n in here if head == "param" or m.formats[n].by_name[name].library() == "static"]
    never = [n for n in told if any(it != c for it in compared(m.formats[n], left, "==")) or c in compared(m.formats[n], left, "!=")]
    only = [n for n in told if c in compared(m.formats[n], left, "==")]
    return [n for n in here if n not in never], [n for n in here if n not in only]


def tree_fault(m, tree):
    reach = [set(range(len(m.formats)))]
    for i, node in enumerate(tree):
        here = sorted(reach.pop())
        if node[0] in ("param", "ref"):
            least, most = bounds(m, node)
            if not least <= node[2] <= most:
                return "%s %s node %d" % ("V7" if node[0] == "param" else "V9", m.name, i)
            reach += reversed(parted(m, here, node))
        elif node[0] == "bit":
            for n in here:
                if m.formats[n].least() <= node[1]:
                    return "V5 %s node %d %s" % (m.name, i, m.formats[n].shown())
            reach += [{n for n in here if known_bits(m.formats[n]).get(node[1]) != 0}, {n for n in here if known_bits(m.formats[n]).get(node[1]) != 1}]
        else:
            for n in here:
                if node[0] == "none" or n != node[1]:
                    return "V4 %s node %d %s" % (m.name, i, m.formats[n].shown())
    return None


def count(methods, entries, k):
    total = 0
    for n, (_, write) in entries[k][1].items():
        f, ways = methods[k].formats[n], 1
        for step in write:
            d = f.by_name[step[1]]
            ways *= 1 << choice(f, d) if step[0] == "choose" else count(methods, entries, d.encoding[1]) if step[0] == "call" else 1
        total += ways
    return total


def fault(methods, top, version, entries):
    """The line of the first fault, or None where the certificate is valid."""
    for k, m in enumerate(methods):
        if not m.formats:
            continue
        if k not in entries:
            return "check: V1 " + m.name
        tree, plans = entries[k]
        found = tree_fault(m, tree)
        if found:
            return "check: " + found
        for n, f in enumerate(m.formats):
            if n not in plans:
                return "check: V1 %s %s" % (m.name, f.shown())
            for direction, plan in zip(("read", "write"), plans[n]):
                found = plan_fault(methods, f, direction, plan, version)
                if found:
                    return "check: %s %s %s %s %s" % (found[0], m.name, f.shown(), direction, found[1])
    if count(methods, entries, top) > LIMIT["candidates"]:
        return "check: V6 candidates"
    if max(it.most("C") for it in methods[top].formats) > LIMIT["packed"]:
        return "check: V8 length"
    return None


def answer(methods, top, text):
    """What `check` prints, and its status."""
    try:
        found = fault(methods, top, *read(methods, text))
    except Fault as line:
        found = str(line)
    return (found, 1) if found else ("accepted", 0)
