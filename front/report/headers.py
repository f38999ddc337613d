"""What a report tells of headers: their bits one after the other, the share of each field, what is read after losses, and what is refused."""
from . import svg
from .markup import bar, code, mean, plural, section, side, table
from .program import losses_of, of_kind
from .svg import unbroken

SINGLE, GROUPS = 5000, 1000  # items of which each has a bar of its own; else that many groups have one
PERCENT = 100


def refused_items(objects):
    return [it for it in of_kind(objects, "fault") if it["part"] == "item"]


# ---- bits over time


def grouped(items):
    """The place, the height and the format of each bar: of an item, or of a group the middle, the mean and the most frequent one; and how many items a bar has."""
    if len(items) <= SINGLE:
        return [(it["number"], it["bits"], it["format"]) for it in items], 1
    size = -(-len(items) // GROUPS)
    groups = [items[at:at + size] for at in range(0, len(items), size)]
    return [middle(group) for group in groups], size


def middle(group):
    """The bar of a group."""
    named = [it["format"] for it in group]
    return (group[0]["number"] + group[-1]["number"]) / 2, sum(it["bits"] for it in group) / len(group), max(dict.fromkeys(named), key=named.count)


def swatch(colour):
    return '<svg xmlns="http://www.w3.org/2000/svg" viewBox="0 0 14 10" aria-hidden="true"><path d="M0,5h14" stroke-width="10" class="bar c%d"/></svg>' % (colour % svg.COLOURS)


def time_part(told):
    """A bar for each item, in the colour of its format."""
    items, formats = of_kind(told["items"], "item"), [it for it in of_kind(told["stats"], "format") if it["depth"] == 0]
    if not items:
        return ""
    colours = {it["name"]: at for at, it in enumerate(formats)}
    found, size = grouped(items)
    refused = [it["number"] for it in refused_items(told["items"])]
    count = max(items[-1]["number"], max(refused, default=0))
    drawn = svg.bars("The packed bits of each item", [(at, height, colours[name]) for at, height, name in found], count, "item", refused)
    legend = "".join("<li>%s%s <span class=\"soft\">%s</span></li>" % (swatch(colours[it["name"]]), code(it["name"]), plural(it["items"], "item")) for it in formats if it["items"])
    words = "A bar for each item: its height is the bits of the packet, its colour the format." if size == 1 else \
        "A bar for each group of %d items: its height is the mean of their bits, its colour the format that most of them have." % size
    marks = " Below the bars stands a mark for each item that is refused." if refused else ""
    return '<h3>Bits over time</h3><p>%s%s</p><div class="scroll">%s</div><ul class="legend">%s</ul>' % (words, marks, drawn, legend)


# ---- formats and fields


def formats_part(told):
    every = of_kind(told["stats"], "all")[0]
    formats = [it for it in of_kind(told["stats"], "format") if it["depth"] == 0]
    rows = [(code(it["name"]), it["items"], it["bits"], mean(it), bar(it["items"] / max(1, every["items"]))) for it in formats]
    return "<h3>Formats</h3>" + table(("format", "items", "bits", "mean", "share of the items"), rows, numbers=(1, 2, 3))


def shares_part(told):
    """A bar for each field of the top: its share of all packed bits, whichever format has them."""
    every, found = of_kind(told["stats"], "all")[0], {}
    for it in of_kind(told["stats"], "field"):
        if it["depth"] == 1:
            found[it["name"]] = found.get(it["name"], 0) + it["bits"]
    rows = [(code(name), bits, "%.1f" % (bits / max(1, every["items"])), "%.1f %%" % (PERCENT * bits / max(1, every["bits"])), bar(bits / max(1, every["bits"])))
            for name, bits in sorted(found.items(), key=lambda it: -it[1])]
    return "<h3>Where the bits go</h3>" + table(("field", "bits", "bits an item", "share", ""), rows, numbers=(1, 2, 3)) + inside_part(told)


def inside_part(told):
    """All that is counted, of formats and fields and of what is inside of them."""
    rows = []
    for it in of_kind(told["stats"], "format", "field"):
        rows.append(('<span style="padding-left:%.1fem">%s</span>' % (1.2 * it["depth"], code(it["name"])), it["items"], it["bits"], mean(it)))
    return "<details><summary>Each format with its fields</summary>%s</details>" % table(("format, field", "items", "bits", "mean"), rows, numbers=(1, 2, 3))


def headers_section(told):
    """What is counted of the headers."""
    every = of_kind(told["stats"], "all")
    if not every:
        return section("headers", "Headers", *map(fault_words, of_kind(told["stats"], "fault")))
    words = "<p>%s packed, %d bits, %s bits an item.</p>" % (plural(every[0]["items"], "item") + (" is" if every[0]["items"] == 1 else " are"), every[0]["bits"], mean(every[0]))
    return section("headers", "Headers", words, time_part(told), formats_part(told), shares_part(told))


# ---- losses


def fault_words(it):
    return '<p class="bad">%s</p>' % unbroken("%s%s: %s %s" % (it["part"], "" if it["number"] is None else " %d" % it["number"], it["code"], it["text"]))


def use_words(it):
    """A reference that doesn't serve, in words."""
    method = it["method"] if it["k"] is None else "%s(%s, %s)" % (it["method"], it["k"], it["offset"])
    has = "nothing" if it["has"] is None else code(side(it["has"]))
    steps = "" if it["step"] is None else ": the step is %s, and it takes %s to %s" % (it["step"], it["from"], it["to"])
    return "<li>%s by %s: the receiver has %s, and %s is needed%s</li>" % (code(it["path"]), code(method), has, code(side(it["needs"])), steps)


def case_part(told):
    """The first packet that isn't read right, and why."""
    cases = of_kind(told["loss"], "case")
    if not cases:
        return '<p class="good">Each packet is read right, whatever was lost up to here.</p>'
    it = cases[0]
    blamed = ".".join(filter(None, (it["method"], it["at"])))
    heard = "is read as another header" if it["heard"] == "wrong" else "is refused (%s)" % code("U1 Truncated" if it["code"] == "U1" else "U2 Refused %s" % blamed)
    words = "After %s right before, the packet of item %d, by %s, %s." % (plural(it["lost"], "lost packet"), it["item"], code(it["format"]), heard)
    uses = "<p>Of the references that it uses these don't serve:</p><ul>%s</ul>" % "".join(map(use_words, it["uses"])) if it["uses"] else ""
    return '<h3>The first that isn\'t read right</h3><div class="message %s"><p>%s</p>%s</div>' % ("bad" if it["heard"] == "wrong" else "", words, uses)


def lost_part(told):
    """What is read after losses, as a table and as curves."""
    lost = of_kind(told["loss"], "lost")
    rows = [(it["lost"], it["packets"], it["right"], it["refused"], it["wrong"]) for it in lost]
    counted = [it for it in lost if it["packets"]]
    shares = [(name, kind, [(it["lost"], PERCENT * it[name] / it["packets"]) for it in counted]) for name, kind in (("right", ""), ("refused", "third"), ("wrong", "second"))]
    drawn = svg.curves("Packets that are read right, refused and read wrong", shares, "lost in a row", "percent", PERCENT)
    legend = '<p class="soft">The line that is whole is read right, the dotted one refused, the dashed one read wrong, in percent of the packets.</p>'
    formats = [(code(it["format"]), it["packets"], it["right"], it["refused"], it["wrong"], it["reach"]) for it in of_kind(told["loss"], "format")]
    caption = "By format, with 1 and more lost; up to <i>reach</i> all is read right"
    more = table(("format", "packets", "right", "refused", "wrong", "reach"), formats, caption, range(1, 6)) if formats else ""
    return '<div class="scroll">%s</div>%s%s%s' % (drawn, legend, table(("lost", "packets", "right", "refused", "wrong"), rows, numbers=range(5)), more)


def robust_part(told, lost):
    """How many bits packets take that survive losses."""
    rows, points = [], []
    for it in losses_of(lost):
        counted = told["stats"] if it == 0 else told["robust", it]
        for every in of_kind(counted, "all"):
            rows.append((it, every["items"], every["bits"], mean(every), len(refused_items(counted))))
            points += [(it, every["mean"])] if every["mean"] is not None else []
    drawn = svg.curves("Bits of an item by the losses that packets survive", [("bits", "", points)], "lost in a row that packets survive", "bits")
    words = "<p>With <code>--robust N</code> each packet that comes through is read right, where never more than N in a row are lost.</p>"
    return '<h3>Bits and robustness</h3>%s<div class="scroll">%s</div>%s' % (words, drawn, table(("N", "items", "bits", "mean", "refused"), rows, numbers=range(5)))


def losses_section(told, lost):
    if not of_kind(told["loss"], "all"):
        refused = "".join(map(fault_words, of_kind(told["loss"], "fault")))
        return section("losses", "Lost packets", "<p>An item is refused, so nothing is told of lost packets:</p>", refused, robust_part(told, lost))
    words = "<p>What a receiver reads of each packet, where the packets right before it were lost.</p>"
    return section("losses", "Lost packets", words, lost_part(told), case_part(told), robust_part(told, lost))


# ---- refusals


def reason(it):
    where = '<a href="#L%d">%d:%d</a>' % (it["line"], it["line"], it["column"])
    return '<li style="margin-left:%.1fem">%s %s: %s</li>' % (1.2 * it["depth"], where, code(it["subject"]), unbroken(it["text"]))


def refusals_section(told):
    """The first item that is refused, and what stands against each format."""
    faults = of_kind(told["why"], "fault")
    if not faults:
        return ""
    reasons = "".join(map(reason, of_kind(told["why"], "reason")))
    remarks = "".join("<p>%s</p>" % unbroken(it["text"]) for it in of_kind(told["why"], "remark"))
    count = len(refused_items(told["stats"]))
    words = "<p>%s refused. This stands against each format, for the first:</p>" % (plural(count, "item") + (" is" if count == 1 else " are"))
    return section("refused", "Refused", words, *map(fault_words, faults), "<ul>%s</ul>" % reasons if reasons else "", remarks)
