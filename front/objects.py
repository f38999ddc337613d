"""The objects that --json prints (docs/FORMATS.md, JSON lines), as far as the scripts read them or make them of lines of text."""
import json
import re

FAULT = re.compile(r"(?:(item|packet|event) (\d+)|(\w+)(?::(\d+))?(?::(\d+))?): ([A-Z]\d+) (.*)")
CASE = re.compile(r"lost (\d+) item (\d+) (\S+) (wrong|refused)(?: (U\d) (?:Truncated|Refused (\w+)(?:\.(\S+))?))?")
USE = re.compile(r"  (\S+) (static|lsb)(?:\((-?\d+), (-?\d+)\))? has (\S+) needs (\d+:\w*)(?:: step (-?\d+), takes (-?\d+) to (-?\d+))?")


def line(it):
    """An object as a line."""
    return json.dumps(it, ensure_ascii=False, separators=(",", ":")) + "\n"


def number(text):
    """A number; one that has no room in 64 bits with a sign stays a text."""
    return None if text is None else int(text) if -2**63 <= int(text) < 2**63 else text


def bits(text):
    """A text of bits, or nothing where there is none."""
    count, colon, octets = text.partition(":")
    return {"bits": int(count), "hex": octets} if colon else None


def mean(text):
    return None if text == "-" else float(text)


def fault(text):
    """A fault line."""
    whole, at, part, row, column, code, words = FAULT.fullmatch(text).groups()
    return {"kind": "fault", "part": whole or part, "line": number(row), "column": number(column), "number": number(at), "code": code, "text": words}


def fault_line(printed):
    """The fault line at the end of what is printed, also where that is an object."""
    last = printed.decode(errors="replace").rstrip("\n").rpartition("\n")[2]
    if not last.startswith('{"kind":"fault",'):
        return last
    try:
        it = json.loads(last)
    except ValueError:
        return last
    place = "".join(":%d" % it[key] for key in ("line", "column") if it[key] is not None)
    return "%s%s%s: %s %s" % (it["part"], "" if it["number"] is None else " %d" % it["number"], place, it["code"], it["text"])


def told(printed):
    """What the program prints with --json. A fault that it tells before it looks at the words (I4, I6) is a line of text: it becomes an object."""
    text = printed.decode(errors="replace").rstrip("\n")
    return line(fault(text)).encode() if FAULT.fullmatch(text) else printed


def use(text):
    """A line of a reference that doesn't serve."""
    path, method, k, offset, has, needs, *steps = USE.fullmatch(text).groups()
    found = {"path": path, "method": method, "k": number(k), "offset": number(offset), "has": bits(has), "needs": bits(needs)}
    return found | dict(zip(("step", "from", "to"), map(number, steps)))


def case(lines):
    """The lines of a packet that isn't read right."""
    lost, item, form, heard, code, method, at = CASE.fullmatch(lines[0]).groups()
    found = {"kind": "case", "lost": int(lost), "item": int(item), "format": form, "heard": heard, "code": code, "method": method, "at": at}
    return found | {"uses": list(map(use, lines[1:]))}


def context(entries):
    """A context by its lines."""
    found = (it.split(" ") for it in entries.splitlines())
    return {"kind": "context", "entries": [{"path": path, "bits": bits(text)} for path, text in found]}


def entries(it):
    """The lines of a context."""
    return "".join("%s %d:%s\n" % (entry["path"], entry["bits"]["bits"], entry["bits"]["hex"]) for entry in it["entries"])
