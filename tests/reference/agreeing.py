"""What has to hold of the objects of --json beside the text that is made of them: what the text doesn't show of them follows from the rest, by docs/FORMATS.md."""
from .. import fields


def chained(diagram, listed):
    """Whether each field of a diagram begins where those before it end, up to the bounds of the format, and whether they are those that the format lists. (A field that has no bits may be left out.)"""
    least, most, names = 0, 0, []
    for it in diagram["columns"]:
        if (it["offset_least"], it["offset_most"]) != (least, most):
            return False
        least, most = least + it["bits_least"], most + it["bits_most"]
        names.append(it["field"])
    waiting = iter(listed)
    return (least, most) == (diagram["least"], diagram["most"]) and all(it in waiting for it in names)


def use(it):
    """Of `static` no arguments are told, and steps where the text has them alone."""
    told = [it[key] is not None for key in ("step", "from", "to")]
    return all(told) == any(told) and (it["k"] is None) == (it["offset"] is None) == (it["method"] == "static") and not (it["method"] == "static" and any(told))


def trend(it, items):
    """A row of the first table of `advise`: only what WHAT says is there."""
    steps, values = it["steps"], it["values"]
    if (steps is not None) != (it["goes"] == "steps") or bool(values) != (it["goes"] in ("constant", "values")) or it["as_before"] is not None and it["goes"] != "values":
        return False
    if (it["least"] is None) != (it["most"] is None) or (it["least"] is None) != (items == 0):
        return False
    if values and sum(one["items"] for one in values) != items:
        return False
    return steps is None or steps["least"] != steps["most"] or (steps["frequent"], steps["share"]) == (steps["least"], 100)


def own(it, lost):
    """A row of the third table: shares where there are arguments alone. With none lost both are the same."""
    shares = it["share_0"], it["share_lost"]
    if it["k"] is None:
        return it["offset"] is None and shares == (None, None)
    return it["offset"] is not None and (shares[0] is None) == (shares[1] is None) and (lost > 0 or shares[0] == shares[1])


def case(it):
    """A packet that isn't read right: a fault where it is refused, and a method for U2."""
    return (it["code"] is None) == (it["heard"] == "wrong") and (it["method"] is None) == (it["code"] != "U2") and (it["method"] is not None or it["at"] is None) and all(map(use, it["uses"]))


def agrees(words, objects, profile):
    """The first object that doesn't agree with the others or with itself, or None."""
    every = next((it for it in objects if it["kind"] == "all"), None)
    known = fields.Listings(profile).known if words[0] == "draw" and any(it["kind"] == "diagram" for it in objects) else {}
    for it in objects:
        holds = {
            "certificate": lambda it: it["lines"][0] == "rohcfn-certificate %d" % it["version"],
            "diagram": lambda it: chained(it, known[it["method"], it["format"]]),
            "case": case,
            "own": lambda it: own(it, every["lost"]),
            "field": lambda it: words[0] != "advise" or trend(it, every["items"]),
        }.get(it["kind"], lambda it: True)
        if not holds(it):
            return it
    return None
