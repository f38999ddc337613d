"""Through the built program: what `--json` prints, against the stored texts.

Each stored case of a command that takes `--json` is called with it. Each line is an object as docs/schema/ has it, with its keys in that order. Of the objects alone
reference/texts.py makes the text that the command prints without, by docs/FORMATS.md; that has to be the stored one, octet by octet, with the same status. So nothing
is lost and nothing invented. What the text doesn't show has to agree with the rest (reference/agreeing.py). The same is tried of the profiles of examples/profiles/
with the headers of examples/data/, against what the program prints without `--json`.

    python3 -m tests.json_lines [COMMAND ..]
"""
import concurrent.futures
import json
import re
import sys

from examples import headers
from front import parts
from . import cases
from .counting import Checks
from .program import DOCS, EXAMPLES, bundle, run
from .reference import agreeing, schema, texts

WORDS = re.compile(rb"^=== words\r?\n([^\r\n]*)", re.MULTILINE)
PLAIN = ("pack", "unpack", "show", "line")  # commands without it
SCHEMA = schema.stored()
check = Checks("json_lines")


def stored():
    """Name, bundle, status and text of each stored input. Of a whole input the status is that of what it prints."""
    for name, given, status, text in cases.cases():
        yield name, given, status, text.decode()
    for path in sorted(EXAMPLES.glob("**/*.bundle")):
        text = path.with_suffix(".expected").read_text()
        yield path.name, path.read_bytes(), None, text


def words_of(given):
    """The words of a bundle that has them once, in one line."""
    found = WORDS.findall(given)
    return found[0].decode(errors="replace").split(" ") if len(found) == 1 else []


def with_json(given):
    """The bundle with `--json` behind its words."""
    return WORDS.sub(lambda found: found.group() + b" --json", given, count=1)


def objects(printed):
    """The objects of lines: a mean as it is written. None where a line isn't the one text of its object without blanks."""
    found = [json.loads(it) for it in printed.splitlines()]
    if "".join(json.dumps(it, ensure_ascii=False, separators=(",", ":")) + "\n" for it in found) != printed:
        return None
    return found


def faults(words, printed, text, profile):
    """What is wrong with lines of which the text is this one."""
    try:
        found = objects(printed)
    except ValueError:
        return "no lines of JSON"
    if found is None:
        return "written otherwise"
    for it in found:
        of = SCHEMA.of("of_" + words[0])
        if not SCHEMA.allows(it, of):
            return "not as docs/schema/ has it: %s" % it
        if not SCHEMA.is_ordered(it, of):
            return "keys in another order: %s" % it
    odd = agreeing.agrees(words, found, profile)
    if odd is not None:
        return "doesn't agree with the rest: %s" % odd
    seen = texts.text(words, found)
    return None if seen == text else "another text: %.300r" % (first_other(seen, text),)


def first_other(seen, text):
    """The first lines of two texts that differ."""
    both = zip(seen.splitlines() + ["(ended)"], text.splitlines() + ["(ended)"])
    return next(((one, other) for one, other in both if one != other), (seen[-50:], text[-50:]))


def try_one(name, given, status, text):
    """Tries an input whose words call a command with `--json`."""
    words = words_of(given)
    printed, ended = run(with_json(given))
    if status is None:
        status = run(given)[1]
    if status not in (0, 1):
        check(name, (printed, ended) == ("", status), (printed, ended))
        return
    profile = (parts.part_in(given, "profile") or (b"", 0))[0].decode(errors="replace")
    wrong = faults(words, printed, text, profile)
    check(name, wrong is None and ended == status, (wrong, ended))


def calls_of_profiles():
    """Calls of each command on the profiles of examples/, with headers where there are such."""
    for path in sorted((EXAMPLES / "profiles").glob("*.profile")):
        profile, name = path.read_text(), path.stem
        top = headers.TOPS.get(name) or re.findall(r"^([a-z]\w*)", profile, re.MULTILINE)[-1]
        for words in ("check", "prove", "prove --v2", "lint", "draw", "check --explain"):
            yield "%s of %s" % (words, name), "%s --top %s" % (words, top), profile, None
        if name in headers.TOPS:
            every = headers.headers_of(name, (EXAMPLES / "data" / (name + "-headers.hex")).read_text().splitlines())
            flow = max(headers.by_flow(every).values(), key=len)
            items = "".join(it + "\n" for it in headers.items(name, flow))
            for words in ("fields --items", "fields --items --context", "why --items", "stats", "stats --by-item", "stats --robust 2", "loss", "loss --lost 3 --robust 1", "advise"):
                yield "%s of %s" % (words, name), "%s --top %s" % (words, top), profile, items


def try_call(name, words, profile, items):
    """Tries a call against what the program prints without `--json`."""
    text, status = run(bundle(words, profile, items=items))
    printed, ended = run(bundle(words + " --json", profile, items=items))
    wrong = faults(words.split(" "), printed, text, profile)
    check(name, (text or words.startswith("lint")) and wrong is None and ended == status, (wrong, ended))


def refused():
    """The other commands don't take it. What is told before the words are looked at is text."""
    for given, due in (("=== words\ncheck --top t --json\n=== x\n", "bundle: I4 bad part x\n"), ("=== words\ncheck --top t --json\n=== profile\n" + "\n" * (4 << 20), "bundle: I6 above 4 MiB\n")):
        check("before the words: %s" % due, run(given) == (due, 1), run(given))
    for command in PLAIN:
        printed, status = run(bundle("%s --top t --json" % command, "t { UNCOMPRESSED { a [8]; } COMPRESSED { a =:= irregular(8) [8]; } }\n", items="8:00\n"))
        check("%s --json" % command, (printed, status) == ("", 2), (printed, status))


def page():
    """The example of docs/FORMATS.md, with the profile of docs/USAGE.md."""
    profile = re.search(r"^`probe.fn`:\n\n```\n(.*?)^```$", (DOCS / "USAGE.md").read_text(), re.MULTILINE | re.DOTALL)[1]
    due = re.search(r"^\$ bin/rohcfn stats probe.fn --item (\S+) --item (\S+) --json\n(.*?)^```$", (DOCS / "FORMATS.md").read_text(), re.MULTILINE | re.DOTALL)
    seen, _ = run(bundle("stats --top probe --json", profile, items="%s\n%s\n" % due.group(1, 2)))
    check("docs/FORMATS.md", seen == due[3], seen)


def main():
    chosen = sys.argv[1:] or list(texts.TOLD)
    every = [it for it in stored() if (words_of(it[1]) or [""])[0] in chosen]
    calls = [it for it in calls_of_profiles() if it[1].split(" ")[0] in chosen]
    with concurrent.futures.ThreadPoolExecutor(max_workers=4) as pool:
        list(pool.map(lambda it: try_one(*it), every))
        list(pool.map(lambda it: try_call(*it), calls))
    refused()
    page()
    return check.status()


if __name__ == "__main__":
    sys.exit(main())
