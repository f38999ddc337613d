"""The text of a profile with its faults and warnings beside their lines; each of its formats in octets; the decision tree of each method."""
from .. import advice, diagnosis
from . import svg, trees
from .encodings import Encodings
from .markup import code, marked, plural, section, table
from .program import of_kind
from .svg import unbroken

LONGEST = 1 << 18  # characters of a text in which is looked for what helps
LINES, NODES, FORMATS = 4000, 1000, 300  # lines of a text, nodes of trees, and formats that are shown
KINDS = {"bits": "constant", "compressed_value": "constant"}
DOES = {
    "static": "nothing is sent: the field is what the context holds for it",
    "irregular": "all bits are sent as they are",
    "lsb": "the last bits are sent of a value near the one that the context holds",
    "crc": "a checksum is sent",
    "uncompressed_value": "the profile gives the value, and nothing is sent",
    "compressed_value": "a value that the profile gives is sent, and is in no header",
    "bits": "bits that the profile gives are sent",
    "call": "another method of the profile sends the field",
}


# ---- messages


def help_of(fault):
    """What helps with a fault. (In a long text that is looked for no further.)"""
    said, _ = advice.page(fault.code)
    hints = advice.hints(fault) if len(fault.text) <= LONGEST else []
    return "".join("<br>help: %s" % unbroken(it) for it in [*hints, *([said] if said else [])])


def message(words, kind):
    return '<div class="message %s">%s</div>' % (kind, words)


def faults_of(objects, text, again):
    """Each fault of the text with its line: the first, and those that are found on copies in which the ones before are mended."""
    for it in of_kind(objects, "fault"):
        first = diagnosis.fault_at(text, it["line"], it["column"], it["code"], it["text"]) if it["part"] == "profile" else None
        if first is not None:
            for fault in diagnosis.faults(first, again):
                line, column, _ = diagnosis.place_of(text, fault.start)
                yield line, message("<b>%s</b> %s, at column %d%s" % (fault.code, unbroken(fault.words), column, help_of(fault)), "bad")


def beside(told, text, again):
    """Of each line what is told of it."""
    found = {}
    for line, words in faults_of(told["check"], text, again):
        found.setdefault(line, []).append(words)
    for it in of_kind(told["check"], "note"):
        if it["part"] == "profile":
            found.setdefault(it["line"], []).append(message("%s (column %d)" % (unbroken(it["text"]), it["column"]), "bad"))
    for it in of_kind(told.get("lint", []), "warning"):
        if it["line"] is not None:
            subject = "%s: " % code(it["subject"]) if it["subject"] else ""
            found.setdefault(it["line"], []).append(message("warning: %s%s (column %d)" % (subject, unbroken(it["text"]), it["column"]), ""))
    return found


def text_section(told, text, again):
    """The lines of the text with what is told of them."""
    lines, found, rows = text.split("\n"), beside(told, text, again), []
    lines = lines if lines[-1] else lines[:-1]
    for number, line in enumerate(lines[:LINES], 1):
        rows.append('<tr id="L%d"><td>%d</td><td class="line code">%s</td></tr>' % (number, number, marked(line.removesuffix("\r"))))
        if number in found:
            rows.append('<tr class="told"><td></td><td>%s</td></tr>' % "".join(found[number]))
    left = "".join(it for line in sorted(found) if line > min(len(lines), LINES) for it in found[line])
    more = "<p>The text has %d lines, of which %d are shown.</p>" % (len(lines), LINES) if len(lines) > LINES else ""
    links = ", ".join('<a href="#L%d">%d</a>' % (it, it) for it in sorted(found))
    first = "<p>Something is told of %s %s.</p>" % ("line" if len(found) == 1 else "the lines", links) if found else ""
    return section("text", "The profile", first, '<div class="text"><table class="profile"><tbody>%s</tbody></table></div>' % "".join(rows), left, more)


# ---- formats


def bits_of(column):
    """How many bits a field has in the packet."""
    return "%d" % column["bits_most"] if column["bits_least"] == column["bits_most"] else "%d to %d" % (column["bits_least"], column["bits_most"])


def encoding_cell(it, known):
    """The encoding of a field, with a link to the method that it calls."""
    words = code(it.text) if it.text else '<span class="soft">not encoded</span>'
    linked = '<a href="#method-%s">%s</a>' % (unbroken(it.calls), words) if it.calls in known else words
    return '<div class="encoding">%s</div>' % linked


def format_part(diagram, fields, known):
    """A format: its octets, and a row for each field, first those that are sent."""
    sent, kinds, named = [it for it in diagram["columns"] if it["bits_most"]], {it.name: (it.text, KINDS.get(it.kind, it.kind)) for it in fields}, {it.name: it for it in fields}
    rows = [(code(it["field"]), named[it["field"]].part, bits_of(it), encoding_cell(named[it["field"]], known)) for it in sent if it["field"] in named]
    unsent = [(code(it.name), it.part, encoding_cell(it, known)) for it in fields if it.name not in {one["field"] for one in sent}]
    size = plural(diagram["most"], "bit") if diagram["least"] == diagram["most"] else "%d to %d bits" % (diagram["least"], diagram["most"])
    heading = "<h3>%s <span class=\"soft\">%s</span></h3>" % (code("%s.%s" % (diagram["method"], diagram["format"])), size)
    drawn = svg.octets(diagram, kinds) if diagram["most"] else '<p class="soft">A packet of this format has no bits.</p>'
    tables = table(("field", "part", "bits sent", "encoding"), rows, numbers=(2,)) if rows else ""
    if unsent:
        count = plural(len(unsent), "field") + (" takes" if len(unsent) == 1 else " take")
        tables += "<details><summary>%s no bits</summary>%s</details>" % (count, table(("field", "part", "encoding"), unsent))
    return '%s<div class="format"><div>%s</div><div>%s</div></div>' % (heading, drawn, tables)


def formats_section(told, text):
    """Each format in octets."""
    diagrams = of_kind(told.get("draw", []), "diagram")
    if not diagrams:
        return ""
    encodings = Encodings(text)
    known, parts, used, begun = {it["method"] for it in diagrams[:FORMATS]}, [], {}, set()
    for it in diagrams[:FORMATS]:
        fields = encodings.of(it["method"], it["format"])
        used.update({field.kind: True for field in fields})
        if it["method"] not in begun:
            parts.append('<div id="method-%s"></div>' % unbroken(it["method"]))
            begun.add(it["method"])
        parts.append(format_part(it, fields, known))
    legend = table(("encoding", "what it does"), [(code({"bits": "'..'", "call": "a method's name"}.get(it, it)), DOES[it]) for it in DOES if it in used])
    if len(diagrams) > FORMATS:
        parts.append("<p>There are %d formats, of which %d are shown.</p>" % (len(diagrams), FORMATS))
    return section("formats", "Formats", "<p>The packed bits of each format, in rows of octets. A field whose place or length differs has a dashed row.</p>", legend, *parts)


# ---- trees


def trees_section(lines):
    """The decision tree of each method, by the lines of a certificate."""
    if not lines:
        return ""
    parts, left, drawn = [], NODES, []
    for name, root in trees.trees(lines):
        count = sum(1 for _ in root.every())
        if count <= left:
            left -= count
            drawn.append((name, root))
        else:
            parts.append("<h3>%s</h3><p>Its tree has %d nodes, and is not drawn.</p>" % (code(name), count))
    placed = trees.placed_trees([root for _, root in drawn])
    shown = ["<h3>%s</h3><div class=\"scroll\">%s</div>" % (code(name), svg.tree("The decision tree of %s" % name, it)) for (name, _), it in zip(drawn, placed)]
    words = "<p>A receiver tests these bits and parameters one after the other, and knows at a leaf by which format the packet is.</p>"
    return section("trees", "Decision trees", words, *shown, *parts)
