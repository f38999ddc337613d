"""The decision trees of a certificate (docs/FORMATS.md, The text of a certificate), with places for their nodes: by graphviz's `dot` where that is there, else
by hand."""
import shutil
import subprocess

DOT_NODES, DOT_SECONDS = 400, 1  # of more nodes dot isn't asked; and how long it may take
CHARACTER, HEIGHT, GAP, LEVEL, MARGIN = 7.2, 24, 14, 58, 6
INCH = 72


class Node:
    """A test, with its two subtrees and what leads to each; or a leaf."""

    def __init__(self, text, kind, below=()):
        self.text, self.kind, self.below = text, kind, list(below)
        self.width, self.x, self.y = CHARACTER * len(text) + 14, 0.0, 0.0

    def every(self):
        """The nodes from here on, in preorder."""
        waiting = [self]
        while waiting:
            it = waiting.pop()
            yield it
            waiting += [below for _, below in reversed(it.below)]


class Placed:
    """A tree as it is drawn: nodes with a text, a kind, a place, a width and a height; edges with points, a text and the place of that."""

    def __init__(self):
        self.nodes, self.edges, self.width, self.height = [], [], 0, 0


def read(lines, place):
    """The node whose line stands at a place, and the place after it. (A tree has at most 128 levels.)"""
    word, *rest = lines[place].split(" ")
    if word in ("leaf", "none"):
        return Node(rest[0] if rest else "none", word), place + 1
    first, place = read(lines, place + 1)
    second, place = read(lines, place)
    if word == "bit":
        return Node("bit " + rest[0], "bit", [("0", first), ("1", second)]), place
    return Node("%s = %s" % tuple(rest), word, [("yes", first), ("no", second)]), place


def trees(lines):
    """The methods of a certificate, each with its tree."""
    found, place = [], 0
    while place < len(lines):
        word, _, name = lines[place].partition(" ")
        place += 1
        if word == "method":
            node, place = read(lines, place)
            found.append((name, node))
    return found


# ---- by hand


def spread(node, left, level):
    """Gives the nodes below one their places, from the left on; where they end on the right."""
    node.y = MARGIN + HEIGHT / 2 + LEVEL * level
    if not node.below:
        node.x = left + node.width / 2
        return left + node.width + GAP
    right = left
    for _, it in node.below:
        right = spread(it, right, level + 1)
    node.x = max((node.below[0][1].x + node.below[-1][1].x) / 2, left + node.width / 2)
    return max(right, left + node.width + GAP)


def by_hand(root):
    """A tree with its leaves side by side, and each test above the middle of its two subtrees."""
    placed = Placed()
    placed.width = spread(root, MARGIN, 0) - GAP + MARGIN
    for node in root.every():
        placed.nodes.append((node.text, node.kind, node.x, node.y, node.width, HEIGHT))
        for text, below in node.below:
            points = [(node.x, node.y + HEIGHT / 2), (below.x, below.y - HEIGHT / 2)]
            placed.edges.append((points, text, ((node.x + below.x) / 2 + 8, (node.y + below.y) / 2)))
    placed.height = max(it.y for it in root.every()) + HEIGHT / 2 + MARGIN
    return placed


# ---- by dot


def asked(root):
    """The tree in the language of dot; nodes are numbers, so that no name is read by it."""
    lines, numbers = ["digraph {", "nodesep=0.2; ranksep=0.45; node [shape=box, fixedsize=true, fontsize=10]; edge [fontsize=10, arrowhead=none]"], {}
    for number, node in enumerate(root.every()):
        numbers[id(node)] = number
        lines.append('%d [label="", width=%.3f, height=%.3f]' % (number, node.width / INCH, HEIGHT / INCH))
    for node in root.every():
        lines += ['%d -> %d [label="%s"]' % (numbers[id(node)], numbers[id(below)], text) for text, below in node.below]
    return "\n".join([*lines, "}"])


def told(text, roots):
    """The trees as dot's plain format places them."""
    for root, block in zip(roots, text.split("stop\n")):
        rows = [it.replace('""', "-").split(" ") for it in block.splitlines()]
        placed, nodes, height = Placed(), list(root.every()), float(rows[0][3])

        def at(x, y):
            return INCH * float(x) + MARGIN, INCH * (height - float(y)) + MARGIN
        placed.width, placed.height = INCH * float(rows[0][2]) + 2 * MARGIN, INCH * height + 2 * MARGIN
        for row in rows[1:]:
            if row[0] == "node":
                node = nodes[int(row[1])]
                placed.nodes.append((node.text, node.kind, *at(*row[2:4]), node.width, HEIGHT))
            elif row[0] == "edge":
                count = 4 + 2 * int(row[3])
                points = [at(*row[place:place + 2]) for place in range(4, count, 2)]
                placed.edges.append((points, row[count], at(*row[count + 1:count + 3])))
        yield placed


def by_dot(roots):
    """The trees as dot places them; or None where it isn't there, or gives no answer."""
    if shutil.which("dot") is None or sum(1 for root in roots for _ in root.every()) > DOT_NODES:
        return None
    try:
        ran = subprocess.run(["dot", "-Tplain"], input="\n".join(map(asked, roots)).encode(), capture_output=True, timeout=DOT_SECONDS, check=True)
        found = list(told(ran.stdout.decode(), roots))
        return found if len(found) == len(roots) else None
    except (OSError, ValueError, IndexError, subprocess.SubprocessError):
        return None


def placed_trees(roots):
    """Each tree with the places of its nodes."""
    return by_dot(roots) or list(map(by_hand, roots))
