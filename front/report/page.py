"""Puts the page together."""
import os

from . import headers, profile
from .markup import mean, section
from .program import of_kind
from .svg import unbroken

STYLE = os.path.join(os.path.dirname(os.path.realpath(__file__)), "style.css")
FRAME = """<!DOCTYPE html>
<html lang="en">
<head>
<meta charset="utf-8">
<meta name="viewport" content="width=device-width, initial-scale=1">
<meta name="color-scheme" content="light dark">
<meta http-equiv="Content-Security-Policy" content="default-src 'none'; style-src 'unsafe-inline'">
<title>{title}</title>
<style>
{style}</style>
</head>
<body>
<h1>{title}</h1>
<p class="soft">{told}</p>
<nav>{links}</nav>
{body}
</body>
</html>
"""
NAMES = {"headers": "Headers", "losses": "Lost packets", "refused": "Refused", "text": "Profile", "formats": "Formats", "trees": "Decision trees"}


def card(value, what, kind=""):
    return '<div class="card"><b class="%s">%s</b><span>%s</span></div>' % (kind, value, what)


def verdict(told):
    """Whether the profile is accepted; else the fault line."""
    faults = of_kind(told["check"], "fault")
    if not faults:
        return card("accepted", "no packet has two readings", "good"), ""
    it = faults[0]
    words = "%s %s" % (it["code"], it["text"])
    kind = "a fault of the text" if it["part"] == "profile" else "no certificate" if it["part"] == "prove" else "refused"
    return card(unbroken(it["code"]), kind, "bad"), '<div class="message bad">%s</div>' % unbroken(words)


def cards(told):
    """What is told at a glance."""
    first, more = verdict(told)
    found, warnings = [first], len(of_kind(told.get("lint", []), "warning"))
    if "lint" in told:
        found += [card(len(of_kind(told["draw"], "diagram")), "formats"), card(warnings, "warnings", "warn" if warnings else "")]
    for it in of_kind(told.get("stats", []), "all"):
        refused = len(headers.refused_items(told["stats"]))
        found += [card(it["items"], "items"), card(mean(it), "bits an item"), card(refused, "items refused", "bad" if refused else "")]
    lost = of_kind(told.get("loss", []), "lost")
    if len(lost) > 1 and lost[1]["packets"]:
        found.append(card("%d of %d" % (lost[1]["right"], lost[1]["packets"]), "read right after one is lost"))
        wrong = sum(it["wrong"] for it in lost)
        found.append(card(wrong, "read as another header", "bad" if wrong else "good"))
    return '<div class="cards">%s</div>%s' % ("".join(found), more)


def page(told, name, top, text, lost, lines, again):
    """The page: what is told, the name of the profile's file, its top and its text, how many packets are lost at most, the lines of the certificate, and what gives
    the faults of a copy."""
    parts = [headers.headers_section(told)] if "stats" in told else []
    if of_kind(told.get("stats", []), "all"):
        parts += [headers.losses_section(told, lost), headers.refusals_section(told)]
    parts += [profile.text_section(told, text, again), profile.formats_section(told, text), profile.trees_section(lines)]
    context = [it for it in of_kind(told.get("lint", []), "warning") if it["line"] is None]
    parts += [section("context", "The context", *['<p class="warn">%s: %s</p>' % (unbroken(it["subject"] or ""), unbroken(it["text"])) for it in context])] if context else []
    body = "\n".join([cards(told), *filter(None, parts)])
    links = "".join('<a href="#%s">%s</a>' % it for it in NAMES.items() if 'id="%s"' % it[0] in body)
    words = "The profile %s with the top %s. All numbers are those that bin/rohcfn prints with --json (docs/FORMATS.md)." % (name, top)
    with open(STYLE, encoding="utf-8") as file:
        style = file.read()
    return FRAME.format(title=unbroken(name), told=unbroken(words), links=links, body=body, style=style)
