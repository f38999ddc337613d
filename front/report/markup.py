"""Small parts of a page. Every text that comes from outside goes through `unbroken` or `marked`."""
from ..terminal import shown
from .svg import unbroken

WIDEST = 2000  # characters of a line that are shown


def marked(text):
    """A line with what isn't seen as itself marked, by its number. Tabs stay."""
    if len(text) <= WIDEST and text.isprintable():
        return unbroken(text)
    cut = text[:WIDEST]
    found = "".join(unbroken(it) if it.isprintable() else it if it == "\t" else '<span class="unseen">%s</span>' % unbroken(shown(it)) for it in cut)
    return found if len(text) <= WIDEST else found + '<span class="soft"> and %d more characters</span>' % (len(text) - WIDEST)


def code(text):
    return "<code>%s</code>" % unbroken(text)


def side(it):
    """A text of bits."""
    return "%d:%s" % (it["bits"], it["hex"])


def plural(count, what):
    return "%s %s%s" % (count, what, "" if count == 1 else "s")


def table(heads, rows, caption=None, numbers=()):
    """A table of cells that are HTML; columns of numbers stand to the right."""
    def cells(name, row):
        return "".join("<%s%s>%s</%s>" % (name, ' class="number"' if at in numbers else "", it, name) for at, it in enumerate(row))
    head = "<caption>%s</caption>" % caption if caption else ""
    body = "".join("<tr>%s</tr>" % cells("td", row) for row in rows)
    return '<div class="scroll"><table>%s<thead><tr>%s</tr></thead><tbody>%s</tbody></table></div>' % (head, cells("th", heads), body)


def section(name, title, *parts):
    return '<section id="%s"><h2>%s</h2>%s</section>' % (name, title, "".join(parts))


def mean(it):
    return "-" if it["mean"] is None else "%.1f" % it["mean"]


def bar(share):
    """A bar of a share of 1."""
    return '<div class="share">%s</div>' % ('<i style="width:%.2f%%"></i>' % (100 * share) if share else "")
