"""The pages that `bin/rohcfn report` writes, through the built program: of the profiles of examples/, some with headers, and of hostile texts.

Each page is read by a parser: its elements nest, it has no script and takes nothing from elsewhere, each drawing is well-formed XML, and what stands in them are the
numbers that the commands print as text. The size has a bound, and so has the time, as in hostile.py. Where a browser is installed (Chromium, by the name chromium,
chromium-browser or google-chrome) the page is laid out by it at 360 and 1,440 pixels, light and dark."""
import html.parser
import json
import os
import pathlib
import re
import shutil
import subprocess
import sys
import tempfile
import time
import xml.etree.ElementTree

from examples import captures, headers
from front.report import trees
from . import hostile
from .counting import Checks
from .program import EXAMPLES, ROOT, bundle, run

FILTER = ROOT / "bin" / "rohcfn"
SIZE, SECONDS, HEADERS = 2 << 20, 2, 600
SVG = "{http://www.w3.org/2000/svg}"
VOID = {"meta", "br", "link", "img", "hr"}
UNSEEN = re.compile("[\x00-\x08\x0b-\x1f\x7f-\x9f\u061c\u200e\u200f\u2028-\u202e\u2066-\u2069]")
BROWSERS = ("chromium", "chromium-browser", "google-chrome")
WIDTHS = (360, 1440)
PARTS = ("text", "formats", "trees", "headers", "losses")
check = Checks("report")


# ---- a page, read


class Page(html.parser.HTMLParser):
    """Reads a page: its tables, its texts by the element with an id around them, and what is wrong with it."""

    def __init__(self, text):
        super().__init__()
        self.open, self.faults, self.texts, self.tables, self.links, self.ids, self.heads = [], [], [], [], [], [], []
        self.under, self.policies = [], []
        self.feed(text)
        self.close()
        self.faults += ["not closed: %s" % self.open] if self.open else []
        self.text = "".join(self.texts)

    def handle_starttag(self, tag, attributes):
        if tag not in VOID:
            self.open.append(tag)
        self.begin(tag, dict(attributes))

    def handle_startendtag(self, tag, attributes):
        self.begin(tag, dict(attributes))

    def begin(self, tag, attributes):
        """Judges an element and its attributes."""
        if tag in ("script", "link", "img", "iframe", "object", "embed", "base", "form", "image", "use", "foreignobject"):
            self.faults.append("an element %s" % tag)
        for name, value in attributes.items():
            if name.startswith("on") or name in ("src", "srcset", "xlink:href") or name == "href" and not value.startswith("#"):
                self.faults.append("an attribute %s=%s" % (name, value))
            if name == "style" and not re.fullmatch(r"(min-width|width|margin-left|padding-left):[\d.]+(px|em|%)", value):
                self.faults.append("a style %s" % value)
        if tag == "meta" and attributes.get("http-equiv", "").lower() == "content-security-policy" and self.open == ["html", "head"]:
            self.policies.append(attributes.get("content", ""))
        if tag in ("style", "body") and not self.policies:
            self.faults.append("an element %s before a policy" % tag)
        self.links += [attributes["href"][1:]] if attributes.get("href", "").startswith("#") else []
        self.ids += [attributes["id"]] if "id" in attributes else []
        self.heads += [""] if tag == "h3" else []
        if tag == "table":
            self.tables.append([])
            self.under.append(self.heads[-1] if self.heads else "")
        elif tag == "tr" and self.tables:
            self.tables[-1].append([])
        elif tag in ("td", "th") and self.tables:
            self.tables[-1][-1].append("")

    def handle_endtag(self, tag):
        if not self.open or self.open.pop() != tag:
            self.faults.append("the end of %s" % tag)

    def handle_data(self, data):
        if self.open and self.open[-1] == "style":
            self.faults += ["a style that takes something: %s" % it for it in re.findall(r"url\(|@import|expression", data)]
            return
        self.texts.append(data)
        if "h3" in self.open:
            self.heads[-1] += data
        if {"td", "th"} & set(self.open) and self.tables:
            self.tables[-1][-1][-1] += data

    def table(self, *heads):
        """The rows of the first table with these heads."""
        return next((it[1:] for it in self.tables if it and [cell.strip() for cell in it[0]] == list(heads)), None)


def is_closed(policy):
    """Whether a Content-Security-Policy lets a page take nothing from anywhere and run nothing: styles alone may stand in it."""
    sources = dict((name, set(more)) for name, *more in filter(None, map(str.split, policy.split(";"))))
    allowed = sources.pop("style-src", set())
    return sources.get("default-src") == {"'none'"} and allowed <= {"'none'", "'unsafe-inline'"} and all(it == {"'none'"} for it in sources.values())


def drawings(text):
    """The drawings of a page; each has to be well-formed."""
    return [xml.etree.ElementTree.fromstring(it) for it in re.findall(r"<svg.*?</svg>", text, re.DOTALL)]


def sound(name, text):
    """Tries what holds of every page; the page that was read."""
    page = Page(text)
    check("%s: sound" % name, not page.faults, page.faults[:3])
    check("%s: a policy" % name, any(map(is_closed, page.policies)), page.policies)
    check("%s: links lead somewhere" % name, set(page.links) <= set(page.ids) and len(set(page.ids)) == len(page.ids), set(page.links) - set(page.ids))
    check("%s: nothing unseen" % name, UNSEEN.search(text) is None, UNSEEN.findall(text))
    check("%s: size" % name, len(text.encode()) <= SIZE, len(text.encode()))
    try:
        check("%s: drawings" % name, all(it.find(SVG + "title") is not None or it.get("aria-hidden") == "true" for it in drawings(text)))
    except xml.etree.ElementTree.ParseError as why:
        check("%s: drawings" % name, False, why)
    return page


# ---- calls


class Folder:
    """A folder for profiles, items and pages."""

    def __init__(self, path):
        self.path = pathlib.Path(path)

    def put(self, name, text):
        (self.path / name).write_bytes(text if isinstance(text, bytes) else text.encode())

    def call(self, *words, **how):
        return subprocess.run([FILTER, "--as-built", "report", *words], cwd=self.path, capture_output=True, text=True, check=False, **how)

    def made(self, name, *words):
        """The page that a call writes."""
        path = self.path / "page.html"
        path.unlink(missing_ok=True)
        ran = self.call(*words, "-o", "page.html")
        check("%s: written" % name, (ran.returncode, ran.stdout, ran.stderr) == (0, "", "") and path.is_file(), (ran.returncode, ran.stderr))
        return path.read_text() if path.is_file() else ""


def rows_of(printed, heads):
    """The rows of a table that a command prints, below these heads, without their leading blanks."""
    lines = printed.splitlines()
    at = next((number for number, it in enumerate(lines) if it.split() == heads), None)
    found = []
    for line in lines[at + 1:] if at is not None else []:
        cells = line.split()
        if not line.startswith("  ") or len(cells) != len(heads):
            break
        found.append(cells)
    return found


# ---- what stands in a page


def profile_part(name, page, text):
    """The lines of the text stand there with their numbers."""
    rows = next((it for it in page.tables if it and it[0] and it[0][0] == "1"), [])
    lines = [cells[1] for cells in rows if cells[0]]
    due = text.split("\n")
    check("%s: the text" % name, lines == (due if due[-1] else due[:-1]), None)


def formats_part(name, page, text, top):
    """The formats stand there in the order of `draw`, with the bounds that it prints."""
    printed, _ = run(bundle("draw --top " + top, text))
    heads = re.findall(r"^(\w+\.[\w-]+)  (.*)$", printed, re.MULTILINE)
    seen = [tuple(it.split(" ", 1)) for it in page.heads if "." in it]
    check("%s: formats" % name, seen == heads, (heads, seen))


def trees_part(name, text, page_text, top):
    """Each tree has the nodes of the certificate that `prove` prints."""
    lines = run(bundle("prove --top " + top, text))[0].splitlines()
    due = {}
    for line in lines:
        word, *rest = line.split(" ")
        if word == "method":
            inside = due.setdefault(rest[0], [])
        elif word in ("bit", "leaf", "none", "param", "ref"):
            inside.append({"bit": "bit %s", "leaf": "%s", "none": "none%s"}.get(word, "%s = %s") % tuple(rest or [""]))
    found = {}
    for it in drawings(page_text):
        title = it.find(SVG + "title").text if it.find(SVG + "title") is not None else ""
        if title.startswith("The decision tree of "):
            found[title.split()[-1]] = sorted(node.text or "" for group in it.iter(SVG + "g") for node in group.iter(SVG + "text"))
    check("%s: trees" % name, found == {method: sorted(it) for method, it in due.items()}, (found, due))


def counts_part(name, page, call, lost):
    """The tables of headers and losses have the numbers that the commands print as text."""
    stats, loss = call("stats"), call("loss --lost %d" % lost)
    due = [it for it in re.findall(r"^  (\S+) +(\d+) +(\d+) +(\S+)$", stats, re.MULTILINE)]
    seen = [tuple(it[:4]) for it in page.table("format", "items", "bits", "mean", "share of the items") or []]
    check("%s: formats counted" % name, seen == due, (seen, due))
    check("%s: losses counted" % name, page.table("lost", "packets", "right", "refused", "wrong") == rows_of(loss, "lost packets right refused wrong".split()))
    heads = "format packets right refused wrong reach".split()
    check("%s: formats heard" % name, (page.table(*heads) or []) == rows_of(loss, heads), page.table(*heads))
    robust = {it[0]: it[3] for it in page.table("N", "items", "bits", "mean", "refused") or []}
    due = {str(it): call("stats --robust %d" % it).split()[5] for it in sorted({0, 1, 3, 8} & set(range(lost + 1)) | {lost})}
    check("%s: robust" % name, robust == due, (robust, due))
    shares = page.table("field", "bits", "bits an item", "share", "") or []
    check("%s: shares" % name, sum(int(it[1]) for it in shares) == int(stats.split()[3]), shares)
    inside = [it[:4] for it in page.table("format, field", "items", "bits", "mean") or []]
    check("%s: all counted" % name, inside == rows_of(stats, "format items bits mean".split()), inside[:3])
    first = re.search(r"^lost (\d+) item (\d+) (\S+) (wrong|refused)", loss, re.MULTILINE)
    words = "the packet of item %s, by %s, is %s" % (first[2], first[3], {"wrong": "read as another header", "refused": "refused"}[first[4]]) if first else "Each packet is read right"
    check("%s: the first that isn't read right" % name, words in page.text, words)


def of_profiles(folder):
    """Pages of all profiles of examples/, and of two with the headers of a flow."""
    for path in sorted((EXAMPLES / "profiles").glob("*.profile")):
        text = path.read_text()
        top = headers.TOPS.get(path.stem) or re.findall(r"^([a-z]\w*)", text, re.MULTILINE)[-1]
        page_text = folder.made(path.stem, str(path), "--top", top)
        page = sound(path.stem, page_text)
        profile_part(path.stem, page, text)
        formats_part(path.stem, page, text, top)
        trees_part(path.stem, text, page_text, top)
        check("%s: no headers" % path.stem, "headers" not in page.ids and "formats" in page.ids)
    for kind, top in headers.TOPS.items():
        text, lines = (EXAMPLES / "profiles" / (kind + ".profile")).read_text(), (EXAMPLES / "data" / (kind + "-headers.hex")).read_text().splitlines()
        flow = max(headers.by_flow(headers.headers_of(kind, lines)).values(), key=len)
        items = "".join(it + "\n" for it in headers.items(kind, flow))
        folder.put("items", items)
        lost = {"udp": 8, "rtp": 2}[kind]
        page_text = folder.made(kind, str(EXAMPLES / "profiles" / (kind + ".profile")), "--items", "items", *([] if lost == 8 else ["--lost", str(lost)]))
        page = sound(kind + " with headers", page_text)
        call = lambda words: run(bundle("%s --top %s" % (words, top), text, items=items))[0]
        counts_part(kind, page, call, lost)
        encodings_part(kind, page, call("fields --items"), top)
        bars_part(kind, page_text, len(flow))


def stored_page(folder):
    """examples/report.html is the page of the udp profile with a flow of a capture; where nodes of trees stand depends on dot."""
    folder.put("trace.pcap", captures.capture("udp"))
    due = folder.made("examples/report.html", str(EXAMPLES / "profiles" / "udp.profile"), "--pcap", "trace.pcap", "--flow", "3")
    seen = (EXAMPLES / "report.html").read_text()
    sound("examples/report.html", seen)
    apart = re.compile(r'<svg[^>]* class="tree".*?</svg>', re.DOTALL)
    check("examples/report.html", apart.sub("", seen) == apart.sub("", due) and len(apart.findall(seen)) == len(apart.findall(due)))
    check("examples/report.png", 10_000 < (EXAMPLES / "report.png").stat().st_size < 150_000)


def encodings_part(name, page, listed, top):
    """Each field of a format that an item takes is encoded as `fields` prints it of that item."""
    due, form = {}, None
    for line in listed.splitlines():
        words = line.split()
        if words[0] == "item":
            form = words[2]
        elif line.startswith("  ") and line[2] != " ":
            due.setdefault(form, {})[words[0]] = {"-": "not encoded"}.get(words[4], words[4].partition(".")[0])
    for form, fields in due.items():
        seen = {}
        for under, rows in zip(page.under, page.tables):
            if under.startswith("%s.%s " % (top, form)) and rows[0][0] == "field":
                seen |= {cells[0]: "compressed_value" if cells[-1].startswith("'") else cells[-1].partition("(")[0] for cells in rows[1:]}
        check("%s: encodings of %s" % (name, form), seen == fields, {it for it in seen.items() ^ fields.items()})


def bars_part(name, text, count):
    """There is a bar for each item."""
    bars = [it for it in drawings(text) if it.find(SVG + "title") is not None and it.find(SVG + "title").text == "The packed bits of each item"]
    seen = sum(path.get("d").count("M") for it in bars for path in it.iter(SVG + "path") if "bar" in path.get("class", ""))
    check("%s: bars" % name, len(bars) == 1 and seen == count, seen)


HOSTILE = """/* </script><script>alert("1")</script> '"`&amp; <b>bold</b> \u202e reversed \u2066 \x1b[31m \x7f ]]> --> <!-- */
probe
{
  UNCOMPRESSED { version =:= uncompressed_value(8, 1) [8]; hops [8]; sn [8]; } // <svg onload=alert(1)>
  COMPRESSED same { kind =:= '0' [1]; hops =:= static [0]; sn =:= lsb(4, 1) [4]; }
  COMPRESSED full { kind =:= '1' [1]; hops =:= irregular(8) [8]; sn =:= irregular(8) [8]; }
}
"""


def of_hostile(folder):
    """Texts and names that would be markup, or that a page would obey, are shown as text."""
    for name in ("a.fn", "<b>\"'&.fn", "\u202ebidi\x1b.fn"):
        folder.put(name, HOSTILE)
        page = sound("hostile %r" % name, folder.made("hostile %r" % name, "./" + name))
        for it in ('</script><script>alert("1")</script>', "'\"`&amp; <b>bold</b>", "\\u{202e} reversed \\u{2066} \\u{1b}[31m \\u{7f}", "<svg onload=alert(1)>"):
            check("hostile: %s" % it, it in page.text)
    folder.put("cr.fn", HOSTILE.replace("\n", "\r\n"))
    sound("ends of lines", folder.made("ends of lines", "cr.fn"))
    folder.put("octets.fn", b"a { \xff\xfe }")
    page = sound("no UTF-8", folder.made("no UTF-8", "octets.fn"))
    check("no UTF-8: told", "E05" in page.text)
    folder.put("long.fn", "// " + "x" * 100_000 + "\n" + HOSTILE + "// y\n" * 9000)
    page = sound("a long text", folder.made("a long text", "long.fn"))
    check("a long text: told", "and 98003 more characters" in page.text and "The text has 9008 lines, of which 4000 are shown." in page.text)


def of_faults(folder):
    """Faults and warnings stand beside their lines; a refusal with what explains it."""
    slips = HOSTILE.replace(" irregular(8) [8]; sn =:= irregular", " iregular(8) [8]; sn =:= iregular")
    folder.put("slips.fn", slips)
    page = sound("slips", folder.made("slips", "slips.fn"))
    told = next(it for it in page.tables if it and it[0] and it[0][0] == "1")
    below = [cells[1] for before, cells in zip(told, told[1:]) if before[0] == "6" and not cells[0]]
    check("slips: beside the line", len(below) == 1 and below[0].count("E20 name iregular is not known") == 2 and "do you mean `irregular`?" in below[0], below)
    check("slips: no formats", "formats" not in page.ids)
    folder.put("warned.fn", HOSTILE)
    told = next(it for it in sound("warned", folder.made("warned", "warned.fn")).tables if it and it[0] and it[0][0] == "1")
    below = [cells[1] for before, cells in zip(told, told[1:]) if before[0] == "2" and not cells[0]]
    check("warned: beside the line", below == ["warning: probe.same: a wrong reference is not noticed (column 1)"], below)
    folder.put("twin.fn", HOSTILE.replace("'1'", "'0'"))
    page = sound("refused", folder.made("refused", "twin.fn"))
    check("refused: told", "P2 NoTree probe same full" in page.text and "same begins with 0......., full with 0......." in page.text and "formats" in page.ids and "trees" not in page.ids)
    folder.put("items", "24:014007\n24:024008\n24:014008\n")
    page = sound("an item refused", folder.made("an item refused", "warned.fn", "--items", "items"))
    check("an item refused: told", "item 2: F3 NoFormat" in page.text and "the header has 8:02, and 8:01 is due" in page.text and "refused" in page.ids)
    folder.put("items", "24:014007\nx\n")
    page = sound("a bad line", folder.made("a bad line", "warned.fn", "--items", "items"))
    check("a bad line: told", "items: I1 bad item" in page.text and "losses" not in page.ids, page.text[-300:])


def of_words(folder):
    """Usage faults, files that can't be read or written, and where the page goes."""
    folder.put("good.fn", HOSTILE)
    for words, status, said in (
            (("good.fn",), 2, "error: -o FILE is needed: the page to be written"), (("-o", "x.html"), 2, "error: the file of a profile is needed"), (("good.fn", "-o"), 2, "error: -o needs a value"),
            (("good.fn", "-o", "a", "-o", "b"), 2, "error: -o stands twice"), (("good.fn", "--robust", "1", "-o", "a"), 2, "error: unexpected argument '--robust' found"),
            (("good.fn", "--lost", "3", "-o", "a"), 2, "error: --lost goes with --item, --items or --pcap"), (("good.fn", "--from-context=x", "-o", "a"), 2, "error: --from-context goes with --item"),
            (("good.fn", "--lost", "64", "--item", "24:014007", "-o", "a"), 2, "error: invalid value '64' for '--lost <N>'"), (("gone.fn", "-o", "a"), 3, "rohcfn: gone.fn: No such file"),
            (("good.fn", "-o", "gone/a"), 3, "rohcfn: gone/a: No such file"), (("good.fn", "--items", "gone", "-o", "a"), 3, "rohcfn: gone: No such file"), (("good.fn", "-o", "."), 3, "rohcfn: .: Is a directory")):
        ran = folder.call(*words)
        check("words: %s" % " ".join(words), ran.returncode == status and ran.stderr.startswith(said) and not ran.stdout, (ran.returncode, ran.stderr))
    ran = folder.call("good.fn", "-o", "-")
    check("standard output", ran.returncode == 0 and ran.stdout.startswith("<!DOCTYPE html>") and ran.stderr == "", ran.stderr)
    with open("/dev/full", "wb") as full:
        ran = subprocess.run([FILTER, "--as-built", "report", "good.fn", "-o", "-"], cwd=folder.path, stdout=full, stderr=subprocess.PIPE, text=True, check=False)
    check("a full output", ran.returncode == 3, ran)
    folder.put("trace.pcap", captures.capture("udp"))
    ran = folder.call(str(EXAMPLES / "profiles" / "udp.profile"), "--pcap", "trace.pcap", "-o", "a")
    check("a flow has to be chosen", ran.returncode == 2 and "choose one flow by --flow" in ran.stderr, ran.stderr)
    page = sound("a capture", folder.made("a capture", str(EXAMPLES / "profiles" / "udp.profile"), "--pcap", "trace.pcap", "--flow", "3"))
    check("a capture: items", "110 items are packed" in page.text)


# ---- trees by hand, many items, time


def of_trees():
    """Trees by dot and by hand have the same nodes and edges; by hand no two nodes overlap."""
    lines = ["rohcfn-certificate 1", "method a", "bit 0", "leaf x", "param p -1", "bit 12", "leaf y", "none", "ref f 3", "leaf long_name_of_a_format", "leaf -", "format x", "end"]
    (name, root), = trees.trees(lines)
    hand = trees.by_hand(root)
    check("the subtrees", [(it, below.text) for node in (root, root.below[1][1]) for it, below in node.below] == [("0", "x"), ("1", "p = -1"), ("yes", "bit 12"), ("no", "f = 3")])
    labels = [(text, a < b) for (a, _), (b, _), text in [(points[0], points[-1], text) for points, text, _ in hand.edges]]
    check("by hand: the first to the left", all(right == (text in ("1", "no")) for text, right in labels), labels)
    check("by hand", name == "a" and sorted(it[0] for it in hand.nodes) == sorted(["bit 0", "x", "p = -1", "bit 12", "y", "none", "f = 3", "long_name_of_a_format", "-"]))
    boxes = [(x - w / 2, x + w / 2, y) for _, _, x, y, w, _ in hand.nodes]
    check("by hand: apart", not [1 for at, one in enumerate(boxes) for other in boxes[:at] if one[2] == other[2] and one[0] < other[1] and other[0] < one[1]])
    check("by hand: inside", all(left >= 0 and right <= hand.width for left, right, _ in boxes) and all(y < hand.height for _, _, y in boxes))
    if shutil.which("dot") is None:
        print("report: skipped: no dot, so trees are tried by hand alone")
        return
    dot, = trees.by_dot([root])
    check("by dot", [it[:2] for it in dot.nodes] == [it[:2] for it in hand.nodes] and sorted(it[1] for it in dot.edges) == sorted(it[1] for it in hand.edges))
    deep = [word for _ in range(126) for word in ("bit 0", "leaf a")] + ["none"]
    check("a deep tree", len(list(trees.read(deep, 0)[0].every())) == 253 and trees.by_hand(trees.read(deep, 0)[0]).height > 0)


def of_many(folder):
    """Above 5,000 items groups have the bars."""
    folder.put("many.fn", HOSTILE)
    folder.put("items", "".join("24:0140%02x\n" % (it % 256) for it in range(6000)))
    text = folder.made("many", "many.fn", "--items", "items", "--lost", "1")
    page = sound("many", text)
    bars_part("many", text, 1000)
    check("many: groups", "A bar for each group of 6 items" in page.text)


def in_time(folder):
    """A page with 600 headers takes at most 2 seconds, as the processor is reckoned with."""
    lines = (EXAMPLES / "data" / "udp-headers.hex").read_text().splitlines()
    flows = headers.by_flow(headers.headers_of("udp", lines)).values()
    items = [it for flow in flows for it in headers.items("udp", flow)]
    folder.put("items", "".join(it + "\n" for it in (items * 2)[:HEADERS]))
    best = None
    for _ in range(3):
        before, begun = hostile.slower(), time.monotonic()
        text = folder.made("600 headers", str(EXAMPLES / "profiles" / "udp.profile"), "--items", "items")
        took = (time.monotonic() - begun) / min(before, hostile.slower()) / max(1, os.getloadavg()[0] / (os.cpu_count() or 1))
        best = took if best is None else min(best, took)
        if best <= SECONDS:
            break
    check("600 headers: seconds", best <= SECONDS, best)
    sound("600 headers", text)
    print("report: 600 headers took %.2f seconds and %d octets" % (best, len(text.encode())))
    return text


# ---- in a browser

MEASURING = """<!DOCTYPE html><meta charset="utf-8"><body style="margin:0"><iframe src="page.html" style="border:0;width:{width}px;height:900px"></iframe><pre id="told"></pre><script>
const frame = document.querySelector("iframe");
frame.onload = () => {{
  const page = frame.contentDocument, root = page.documentElement, found = {{wide: root.scrollWidth, parts: {{}}, small: [], out: [], back: frame.contentWindow.getComputedStyle(page.body).backgroundColor}};
  for (const name of {parts}) {{ const box = page.getElementById(name)?.getBoundingClientRect(); found.parts[name] = box ? [box.left, box.right, box.height] : null; }}
  for (const it of page.querySelectorAll("svg")) {{
    const box = it.getBoundingClientRect();
    if (!box.width || !box.height) found.small.push(it.className.baseVal);
    if (box.right > {width} + 1 && !it.closest(".scroll")) found.out.push(it.className.baseVal);
  }}
  found.drawn = page.querySelectorAll("svg").length;
  found.scripts = page.scripts.length;
  document.getElementById("told").textContent = JSON.stringify(found);
}};
</script>"""


def laid_out(browser, folder, width, *flags):
    """What the browser measures of the page at a width."""
    folder.put("measure.html", MEASURING.format(width=width, parts=json.dumps(PARTS)))
    words = [browser, "--headless", "--no-sandbox", "--disable-gpu", "--allow-file-access-from-files", "--virtual-time-budget=10000", "--window-size=1600,1000",
             "--user-data-dir=%s" % (folder.path / "browser"), *flags, "--dump-dom", (folder.path / "measure.html").as_uri()]
    ran = subprocess.run(words, capture_output=True, text=True, timeout=120, check=False)
    found = re.search(r'<pre id="told">(.+?)</pre>', ran.stdout)
    return json.loads(html.unescape(found[1])) if found else None


def in_browser(folder, text):
    """The parts are there, nothing stands beyond the page's width, and a dark page is dark."""
    browser = next(filter(None, map(shutil.which, BROWSERS)), None)
    if browser is None:
        print("report: skipped: no browser")
        return
    folder.put("page.html", text)
    for width in WIDTHS:
        found = laid_out(browser, folder, width)
        check("%d pixels: laid out" % width, found is not None)
        if found is not None:
            check("%d pixels: no overflow" % width, found["wide"] <= width, found["wide"])
            check("%d pixels: the parts" % width, all(it and 0 <= it[0] < it[1] <= width and it[2] > 100 for it in found["parts"].values()), found["parts"])
            check("%d pixels: the drawings" % width, found["drawn"] == text.count("<svg") and not found["small"] and not found["out"], (found["small"], found["out"]))
            check("%d pixels: light" % width, found["back"] == "rgb(255, 255, 255)" and found["scripts"] == 0, found["back"])
    found = laid_out(browser, folder, WIDTHS[0], "--force-dark-mode", "--blink-settings=preferredColorScheme=0")
    check("dark", found is not None and found["back"] == "rgb(20, 23, 29)", found and found["back"])


def main():
    with tempfile.TemporaryDirectory() as name:
        folder = Folder(name)
        of_trees()
        of_words(folder)
        of_hostile(folder)
        of_faults(folder)
        of_profiles(folder)
        stored_page(folder)
        of_many(folder)
        in_browser(folder, in_time(folder))
    return check.status()


if __name__ == "__main__":
    sys.exit(main())
