"""From the objects that a command prints with `--json` to the text that it prints without, by docs/FORMATS.md alone."""

SHARES = ("p90", "p99", "p100")
NEVER = "is never used: it needs "  # the one warning that stands behind its subject with a blank
OCTET = 8
RULE = "  +" + "---+" * OCTET
SCALE = "    " + "   ".join(map(str, range(OCTET)))


# ---- what all texts share


def bits(side):
    """A text of bits."""
    return "%d:%s" % (side["bits"], side["hex"])


def table(rows):
    """Lines in columns, each as wide as its longest text, with two blanks before each and none at the end."""
    widths = [max(map(len, column)) for column in zip(*rows)]
    return ["".join("  " + cell.ljust(width) for cell, width in zip(row, widths)).rstrip() for row in rows]


def place(it):
    """Where a message stands: a part with a line and a column, or with a number."""
    found = it["part"] + (" %d" % it["number"] if it.get("number") is not None else "")
    return found + "".join(":%d" % it[key] for key in ("line", "column") if it.get(key) is not None)


def fault(it):
    return ["%s: %s %s" % (place(it), it["code"], it["text"])]


def note(it):
    """A line of --explain: of the profile a line and a column alone."""
    where = "%d:%d" % (it["line"], it["column"]) if it["part"] == "profile" else place(it)
    return ["%s: %s" % (where, it["text"])]


def warning(it):
    where = "%d:%d" % (it["line"], it["column"]) if it["part"] == "profile" else it["part"]
    if it["subject"] is None:
        return ["%s: warning: %s" % (where, it["text"])]
    return ["%s: warning %s%s%s" % (where, it["subject"], " " if it["text"].startswith(NEVER) else ": ", it["text"])]


def context(it):
    """The last context, behind its heading."""
    return ["=== context", *["%s %s" % (entry["path"], bits(entry["bits"])) for entry in it["entries"]]]


def head(it):
    """The head line of an item or packet."""
    return ["%s %d %s %d bits" % (it["kind"], it["number"], it["format"], it["bits"])]


MESSAGES = {"fault": fault, "note": note, "warning": warning, "context": context, "item": head, "packet": head}


def messages(objects, more=None):
    """Lines of objects one by one."""
    told = {**MESSAGES, **(more or {})}
    return [line for it in objects for line in told[it["kind"]](it)]


# ---- draw


def counted(least, most):
    if least == most:
        return "%d bit%s" % (least, "" if least == 1 else "s")
    return "%d to %d bits" % (least, most)


def label(column):
    return column["field"] + ("" if column["calls"] is None else " =:= " + column["calls"])


def is_fixed(column):
    return column["offset_least"] == column["offset_most"] and column["bits_least"] == column["bits_most"]


def digits(column):
    """The binary digits of a constant that fits, or nothing."""
    value, width = column["constant"], column["bits_most"]
    if value is None or not 0 <= int(value) < 1 << width:
        return None
    return format(int(value), "0%db" % width)


def cells(column, begin, end):
    """What stands of a field in one row, from a bit of the field to another."""
    room, shown = 4 * (end - begin) - 2, digits(column)
    if shown is not None:
        return "   ".join(shown[begin:end])
    text = label(column) if begin == 0 else ".."
    return (text if len(text) <= room else "*").ljust(room)


class Boxes:
    """Rows of octets, in which fields with one place and one length have boxes."""

    def __init__(self):
        self.lines, self.row, self.notes = [SCALE, RULE], "", []

    def bits(self):
        """How many bits the row has."""
        return len(self.row) // 4

    def box(self, column):
        """Adds the boxes of a field, with a row for each octet."""
        at, width = 0, column["bits_most"]
        while at < width:
            end = min(width, at + OCTET - self.bits())
            self.row += "| " + cells(column, at, end).ljust(4 * (end - at) - 2)
            at = end
            if self.bits() == OCTET:
                self.close()
        first = min(width, OCTET - column["offset_most"] % OCTET)
        if digits(column) is None and len(label(column)) > 4 * first - 2:
            self.note(column, width)

    def note(self, column, width):
        begin = column["offset_most"]
        where = "bit %d" % begin if width == 1 else "bits %d to %d" % (begin, begin + width - 1)
        self.notes.append("  %s: %s" % (where, label(column)))

    def close(self):
        """Ends the row, if one is begun."""
        if self.row:
            self.lines += ["  " + self.row + "|", RULE]
        self.row = ""

    def own_row(self, column):
        """A row of its own, for a field without one place or one length."""
        self.close()
        self.lines += ["  : %s:" % ("%s (%s)" % (label(column), counted(column["bits_least"], column["bits_most"]))).ljust(30), RULE]


def diagram(it):
    """The diagram of a format."""
    lines = ["%s.%s  %s" % (it["method"], it["format"], counted(it["least"], it["most"]))]
    if it["most"] == 0:
        return lines
    boxes = Boxes()
    for column in it["columns"]:
        if column["bits_most"]:
            (boxes.box if is_fixed(column) else boxes.own_row)(column)
    boxes.close()
    return lines + boxes.lines + boxes.notes


# ---- fields, why


def field_row(it):
    method = "-" if it["method"] is None else it["method"] + ("" if it["format"] is None else "." + it["format"])
    return "  " * it["depth"] + it["name"], it["part"], bits(it["uncompressed"]), bits(it["compressed"]), method


def filling(it):
    """An item or packet with its fields."""
    return head(it) + table([field_row(field) for field in it["fields"]])


def reason(it):
    return ["%d:%d: %s%s: %s" % (it["line"], it["column"], "  " * it["depth"], it["subject"], it["text"])]


def avoided(it):
    without = "" if it["without"] is None else " without %d" % it["without"]
    return ["format %s items %d others %d refused %d%s" % (it["format"], it["items"], it["others"], it["refused"], without)]


def against(it):
    fits = "" if it["bits"] is None else ": it fits with %d bits, and comes later" % it["bits"]
    return ["items %d first %d by %s%s" % (it["items"], it["first"], it["by"], fits)]


# ---- stats, loss


def mean(it):
    return "-" if it["mean"] is None else str(it["mean"])


def whole(it):
    return ["items %d bits %d mean %s" % (it["items"], it["bits"], mean(it))]


def counted_row(it):
    """A row of `stats`, of a format or a field."""
    return "  " * it["depth"] + it["name"], str(it["items"]), str(it["bits"]), mean(it)


def of_kind(objects, *kinds):
    return [it for it in objects if it["kind"] in kinds]


def stats(objects):
    if not of_kind(objects, "all"):
        return messages(objects)
    rows = [("format", "items", "bits", "mean"), *map(counted_row, of_kind(objects, "format", "field"))]
    return whole(objects[0]) + table(rows) + messages(of_kind(objects, "fault"))


def by_item(objects):
    """The rows of `stats --by-item`. Where a fault ends the call before any item, its line stands alone."""
    faults, items = of_kind(objects, "fault"), of_kind(objects, "item")
    if faults and faults[0]["part"] != "item":
        return messages(faults)
    return ["\t".join(("item", "format", "bits")), *["%d\t%s\t%d" % (it["number"], it["format"], it["bits"]) for it in items], *messages(faults)]


VERDICTS = ("packets", "right", "refused", "wrong")


def use(it):
    """A reference that doesn't serve."""
    method = it["method"] if it["k"] is None else "%s(%s, %s)" % (it["method"], it["k"], it["offset"])
    has = "nothing" if it["has"] is None else bits(it["has"])
    steps = "" if it["step"] is None else ": step %s, takes %s to %s" % (it["step"], it["from"], it["to"])
    return "  %s %s has %s needs %s%s" % (it["path"], method, has, bits(it["needs"]), steps)


def case(it):
    """A packet that isn't read right."""
    blamed = it["method"] if it["at"] is None else "%s.%s" % (it["method"], it["at"])
    code = {"U1": " U1 Truncated", "U2": " U2 Refused %s" % blamed, None: ""}[it["code"]]
    return ["lost %d item %d %s %s%s" % (it["lost"], it["item"], it["format"], it["heard"], code), *map(use, it["uses"])]


def loss(objects):
    if not of_kind(objects, "all"):
        return messages(objects)
    lost = [(str(it["lost"]), *(str(it[key]) for key in VERDICTS)) for it in of_kind(objects, "lost")]
    lines = whole(objects[0]) + table([("lost", *VERDICTS), *lost])
    if len(lost) > 1:
        formats = [(it["format"], *(str(it[key]) for key in (*VERDICTS, "reach"))) for it in of_kind(objects, "format")]
        lines += table([("format", *VERDICTS, "reach"), *formats])
    return lines + messages(of_kind(objects, "case"), {"case": case})


# ---- advise


def lengths(it):
    if it["least"] is None:
        return "-"
    return str(it["least"]) if it["least"] == it["most"] else "%d to %d" % (it["least"], it["most"])


def values(it):
    before = "" if it["as_before"] is None else "; as before in %d %%" % it["as_before"]
    return "%d values: %s%s" % (len(it["values"]), ", ".join("%s in %d" % (bits(one["value"]), one["items"]) for one in it["values"]), before)


def steps(it):
    found, without = it["steps"], ", none in %d" % it["without"] if it["without"] else ""
    if found["least"] == found["most"]:
        return "step %s%s" % (found["least"], without)
    return "steps %s to %s, %s in %d %%%s" % (found["least"], found["most"], found["frequent"], found["share"], without)


def goes(it):
    """How a field goes on, in words."""
    if it["goes"] is None:
        return "-"
    told = {"constant": lambda: "constant " + bits(it["values"][0]["value"]), "values": lambda: values(it), "steps": lambda: steps(it), "random": lambda: "random"}
    return told[it["goes"]]()


def near(it):
    """An `lsb`, or what stands in its place."""
    if it is None or isinstance(it, str):
        return it or "-"
    return "lsb(%s, %s)" % (it["k"], it["offset"])


def own(it, lost):
    """A row of the third table: of an `lsb` by the item no shares are told."""
    keys = ("share_0", "share_lost") if lost else ("share_0",)
    if it["k"] is None:
        return it["field"], it["format"], "by the item", *("" for _ in keys)
    return it["field"], it["format"], near(it), *("-" if it[key] is None else "%d %%" % it[key] for key in keys)


def advise(objects):
    if not of_kind(objects, "all"):
        return messages(objects)
    lost = objects[0]["lost"]
    tables = [
        [("field", "part", "bits", "what"), *[(it["field"], it["part"], lengths(it), goes(it)) for it in of_kind(objects, "field")]],
        [("field", "lost", "90 %", "99 %", "100 %"), *[(it["field"], str(it["lost"]), *(near(it[key]) for key in SHARES)) for it in of_kind(objects, "near")]],
        [("field", "format", "lsb", "lost 0", *(["lost %d" % lost] if lost else [])), *[own(it, lost) for it in of_kind(objects, "own")]],
    ]
    lines = ["items %d lost %d" % (objects[0]["items"], lost), *[line for it in tables if len(it) > 1 for line in table(it)]]
    return lines + messages(of_kind(objects, "fault"))


# ---- commands

TOLD = {
    "check": lambda objects: messages(objects, {"accepted": lambda it: ["accepted"]}),
    "prove": lambda objects: messages(objects, {"certificate": lambda it: it["lines"]}),
    "lint": messages,
    "draw": lambda objects: messages(objects, {"diagram": diagram}),
    "fields": lambda objects: messages(objects, {"item": filling, "packet": filling}),
    "why": lambda objects: messages(objects, {"reason": reason, "remark": lambda it: [it["text"]], "avoided": avoided, "against": against}),
    "stats": stats,
    "loss": loss,
    "advise": advise,
}


def text(words, objects):
    """What a call with these words prints without `--json`, by the objects that it prints with it."""
    told = by_item if words[0] == "stats" and "--by-item" in words else TOLD[words[0]]
    return "".join(line + "\n" for line in told(objects))
