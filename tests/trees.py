"""Through the built program: trees drawn by a fixed seed, in certificates of `fork`. What `check` says of each is compared with a second reading (reading.py). By those that are accepted packets are
read, and what is printed is compared with a walk from node to node and then the format's own bits."""
import functools
import itertools
import random
import sys

from .program import bundle, run
from .reference import proving
from .reference.reading import answer, known_bits, parted
from .reference.samples import FORK, NORMAL, WAYS
from .roundtrip import text as shown


# how many trees, and of how many of them all packets of up to 8 bits are read
COUNT, WHOLE = 200, 2
TESTS = [("bit", it) for it in range(42)] + 3 * [("ref", "m", 0), ("ref", "m", 1), ("ref", "x", 3), ("param", "k", 0), ("param", "k", 1)]
METHOD = NORMAL["fork"][0]
FORMATS = METHOD.formats


@functools.cache
def tests(here, must_part, goal):
    """The tests that may stand where these formats reach, or of them those that part them or on one side of which alone the goal goes on, each with the formats that go on in its two subtrees."""
    fit = [it for it in TESTS + [("bit", 50), ("bit", 99), ("bit", 8191)] * (not here) if it[0] != "bit" or all(it[1] < FORMATS[n].least() for n in here)]
    sides = [parted(METHOD, here, it) if it[0] != "bit" else [[n for n in here if known_bits(FORMATS[n]).get(it[1]) != lost] for lost in (1, 0)] for it in fit]
    found = [(it, tuple(first), tuple(second)) for it, (first, second) in zip(fit, sides) if goal is None or (goal in first) != (goal in second)]
    return [it for it in found if not must_part or max(map(len, it[1:])) < len(here)]


def drawn(draw):
    """A tree whose leaves are those of the formats that reach them, bushy or with one long way of up to 128 nodes, on which a format is; of one in four a node is changed."""
    nodes, is_long, ends, goal = [], draw.random() < 0.4, draw.choice([0.1, 0.2, 0.4]), draw.choice([0, 1, 2, 3, 4, 5, 5, 6, 6])

    def grow(depth, most, here):
        if len(here) < 2 and (depth >= most or draw.random() < ends and not is_long):
            nodes.append(draw.choice([("leaf", FORMATS[draw.choice(here or range(len(FORMATS)))].name)] + [("none",)] * (not here)))
            return
        test, first, second = draw.choice(tests(here, depth >= min(most, 123) and len(here) > 1, goal if is_long and goal in here and draw.random() < 0.9 else None))
        nodes.append(test)
        mosts = [most, min(most, depth + draw.randrange(3)) if is_long else most]
        is_first = goal in first and (goal not in second or draw.random() < 0.5)
        grow(depth + 1, mosts[not is_first], first)
        grow(depth + 1, mosts[is_first], second)

    grow(1, draw.choice([20, 40, 128]) if is_long else draw.randrange(1, 7), tuple(range(len(FORMATS))))
    if draw.random() < 0.25:
        at = draw.randrange(len(nodes))
        nodes[at] = draw.choice([("none",), ("leaf", "a")]) if nodes[at][0] in ("leaf", "none") else (*nodes[at][:-1], nodes[at][-1] + draw.choice([1, 9, 8191]))
    return nodes


def walked(nodes, bits, values):
    """The format to which the tree leads, "" for none, or None where it tests a bit past the last."""
    skipped = 0
    for head, *rest in nodes:
        if skipped:
            skipped += 1 if head in ("bit", "param", "ref") else -1
        elif head in ("leaf", "none"):
            return "".join(rest)
        elif head == "bit" and rest[0] >= len(bits):
            return None
        else:
            skipped = int(bits[rest[0]] == "1" if head == "bit" else values.get(rest[0]) != rest[1])


def told(nodes, bits, context):
    """What is due of a packet, and the context that it leaves, or None where it is refused."""
    own, values = bits[1:], {"m": 0, **context, "k": int(bits[:1] or 0)}
    found = walked(nodes, own, values) if bits else None
    front, back, asked, value = WAYS.get(found, ("", "", "", 0))
    size = len(front + back) + 4
    if found is None or found and len(own) < size:
        return "U1 Truncated", None
    if not found or own[: len(front)] != front or own[len(front) + 4 : size] != back or asked and (values[asked[0]] == value) != ("==" in asked):
        return "U2 Refused way" + (found and ".") + found, None
    x = own[len(front) : len(front) + 4]
    return "%s took %d" % (shown(bits[0] + x), size + 1), {"m": values["m"], "x": int(x, 2)}


def runs(draw, nodes, is_whole):
    """Parts for `unpack`, with what is due: packets that are read, then one that isn't; of all packets of up to 8 bits also each other one that isn't."""
    start, lines = draw.choice([{}, {"m": 0, "x": 3}, {"m": 1}]), ["".join(it) for size in range(9) for it in itertools.product("01", repeat=size)] if is_whole else []
    for front, back, *_ in [] if is_whole else 6 * list(WAYS.values()):
        bits = draw.choice("01") + front + format(draw.randrange(16), "04b") + back
        at = draw.randrange(len(bits))
        lines.append(draw.choice([bits + "01", bits[:at] + "10"[int(bits[at])] + bits[at + 1 :] + "1", bits[:at]]))
    taken, refused = [[it for it in lines if (told(nodes, it, start)[1] is None) == is_refused] for is_refused in (False, True)]
    refused.sort(key=len)
    for packets in [taken + refused[-1:]] + [[it] for it in refused[:-1] if is_whole]:
        part, context, due = "=== context\n" + "".join("f.%s %s\n" % (it, shown(format(value, "01b" if it == "m" else "04b"))) for it, value in start.items()) + "=== packets\n", start, ""
        for place, bits in enumerate(packets):
            line, context = told(nodes, bits, context)
            part, due = part + shown(bits) + "\n", due + ("packet %d: " % (place + 1) if context is None else "") + line + "\n"
        yield "unpack", part, (due, int(context is None))


def main():
    draw, whole, passed, failed = random.Random(10), WHOLE, 0, 0
    head, rest = proving.certificate(NORMAL["fork"], 2).split("\nbit 0\n", 1)
    for number in range(COUNT):
        nodes = drawn(draw)
        certificate = "%s\n%s%s" % (head, "".join(" ".join(map(str, it)) + "\n" for it in nodes), rest[rest.index("format ") :])
        line, status = answer(NORMAL["fork"], 1, certificate)
        is_whole = status == 0 and whole > 0 and len(nodes) > 20
        whole -= is_whole
        for words, part, due in [("check", "", (line + "\n", status)), *(() if status else runs(draw, nodes, is_whole))]:
            seen = run(bundle(words + " --top fork", FORK, certificate=certificate) + part)
            is_right = seen == due
            passed, failed = passed + is_right, failed + (not is_right)
            if not is_right:
                print("%s by tree %d: %r, and not %r\n%s" % (words, number, seen[0], due[0], part))
    print("trees: %d passed, %d failed" % (passed, failed))
    sys.exit(1 if failed else 0)


if __name__ == "__main__":
    main()
