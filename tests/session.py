"""The life of a session with the language server, `bin/rohcfn lsp`: messages that are none, requests out of their turn, streams that end; a program that
takes its time, that fails, and one that isn't there yet.

What is due is written by hand here, by the protocol and docs/EDITORS.md."""
import json
import os
import subprocess
import sys
import tempfile
import threading
import time
import types

from front.server import runs, sessions, texts
from . import first_call
from .counting import Checks
from .editor import HAND, PUBLISHED, URI, Editor, at, framed, place, span, waits
from .files import Place
from .program import built

check = Checks("session")

PARSE, INVALID, UNKNOWN, PARAMETERS, EARLY, CANCELLED = -32700, -32600, -32601, -32602, -32002, -32800
HOVER = '{"jsonrpc":"2.0","id":%s,"method":"textDocument/hover","params":%s}'

# Octets, and the codes of the errors that answer them, with the number of each; what follows is always answered.
WRONG = (
    (framed("{"), [(PARSE, None)]),
    (framed(b"\xff\xfe"), [(PARSE, None)]),
    (framed('{"jsonrpc":"2.0","id":NaN,"method":"x"}'), [(PARSE, None)]),
    (framed("[" * 100_000), [(PARSE, None)]),
    (framed('{"a":' * 100_000), [(PARSE, None)]),
    (framed('{"jsonrpc":"2.0","id":%s,"method":"x"}' % ("9" * 5000)), [(PARSE, None)]),
    (framed('[{"jsonrpc":"2.0","id":1,"method":"shutdown"}]'), [(INVALID, None)]),
    (framed("[]"), [(INVALID, None)]),
    (framed('"text"'), [(INVALID, None)]),
    (framed('{"id":7,"method":"textDocument/hover"}'), [(INVALID, 7)]),
    (framed('{"jsonrpc":"2.0","id":{"a":1},"method":"x"}'), [(INVALID, None)]),
    (framed('{"jsonrpc":"2.0","id":true,"method":"x"}'), [(INVALID, None)]),
    (framed('{"jsonrpc":"2.0","id":8,"method":5}'), [(INVALID, 8)]),
    (framed('{"jsonrpc":"2.0","id":8}'), [(INVALID, 8)]),
    (framed('{"jsonrpc":"2.0","id":"nine","method":"nothing"}'), [(UNKNOWN, "nine")]),
    (framed('{"jsonrpc":"2.0","id":10,"method":"initialize","params":{}}'), [(INVALID, 10)]),
    (framed(HOVER % (11, "{}")), [(PARAMETERS, 11)]),
    (framed(HOVER % (12, "[1]")), [(PARAMETERS, 12)]),
    (framed(HOVER % (13, '{"textDocument":{"uri":"file:///none"},"position":{"line":0,"character":0}}')), [(PARAMETERS, 13)]),
    (framed(HOVER % (14, '{"textDocument":{"uri":"%s"},"position":{"line":-1,"character":0}}' % URI)), [(PARAMETERS, 14)]),
    (framed(HOVER % (15, '{"textDocument":{"uri":"%s"},"position":{"line":0,"character":1e999}}' % URI)), [(PARAMETERS, 15)]),
    (framed('{"jsonrpc":"2.0","id":16,"method":"nothing"}') * 2, [(UNKNOWN, 16)] * 2),
    (framed("{}", "Content-Length: -5\r\n\r\n%.0s"), [(PARSE, None)]),
    (framed("{}", "Content-Length: 2.5\r\n\r\n%.0s"), [(PARSE, None)]),
    (framed("{}", "Content-Length: 1000000000000\r\n\r\n%.0s"), [(PARSE, None)]),
    (framed("{}", "Content-Length: %s\r\n\r\n%%.0s" % ("9" * 400)), [(PARSE, None)]),
    (framed("{}", "Content-Type: text\r\n\r\n%.0s"), [(PARSE, None)]),
    (b"\0" * 300 + b"no header\r\n\r\n", [(PARSE, None)]),
    (b"X: " + b"y" * 20_000, [(PARSE, None)]),
    (framed("{}", "Content-Length: 0\r\n\r\n%.0s").replace(b"{}", b""), [(PARSE, None)]),
    (framed('{"jsonrpc":"2.0","id":17,"method":"nothing"}', "content-length:%d\nContent-Type: a; charset=utf-8\n\n"), [(UNKNOWN, 17)]),
    (framed('{"jsonrpc":"2.0","id":18,"result":1}'), []),
    (framed('{"jsonrpc":"2.0","method":"nothing"}'), []),
    (framed('{"jsonrpc":"2.0","method":"textDocument/didChange","params":{"textDocument":{"uri":"file:///none"},"contentChanges":[]}}'), []),
    (framed('{"jsonrpc":"2.0","method":"textDocument/didChange","params":{"textDocument":{"uri":"%s"},"contentChanges":[{"range":5,"text":""}]}}' % URI), []),
    (framed('{"jsonrpc":"2.0","method":"textDocument/didOpen","params":{"textDocument":{"uri":5}}}'), []),
    (framed('{"jsonrpc":"2.0","method":"$/cancelRequest","params":{"id":99}}'), []),
)


def hostile(editor):
    """What is no message is answered by its error, and what follows is answered as ever."""
    editor.open(URI, HAND)
    due = [(span(HAND, at(HAND, "hops [8]"), at(HAND, "hops [8]", 4)))]
    for octets, errors in WRONG:
        editor.write(octets)
        found = editor.of("definition", URI, position=place(HAND, at(HAND, "hops; sn")))
        seen = [(it["error"]["code"], it["id"]) for it in editor.apart if "error" in it]
        editor.apart = [it for it in editor.apart if "error" not in it]
        check("wrong: %.60r" % octets, seen == errors and [found["range"]] == due, (seen, found))
    cancelled(editor)
    editor.close(URI)


def cancelled(editor):
    """A request that is cancelled before its turn has the protocol's error or its result, and so it has where its number comes twice."""
    seen = set()
    for number in range(300, 340):
        requests = [framed(json.dumps({"jsonrpc": "2.0", "id": number, "method": "textDocument/foldingRange", "params": {"textDocument": {"uri": URI}}})),
                    framed(json.dumps({"jsonrpc": "2.0", "method": "$/cancelRequest", "params": {"id": number}}))]
        editor.write(requests[0] * 20 + requests[1])
        found = [editor.answer(number) for _ in range(20)]
        seen |= {it["code"] if isinstance(it, dict) else "result" for it in found}
        if seen == {"result", CANCELLED}:
            break
    check("cancelled", seen == {"result", CANCELLED}, seen)


def lives(place_of):
    """Requests before initialize and after shutdown; exit with and without shutdown; streams that end; words of the call."""
    def starts(*words):
        return Editor(place_of.command, words, cwd=place_of.files, env=place_of.environment)
    editor = starts("--stdio")
    early = editor.of("hover", URI, position={"line": 0, "character": 0})
    editor.open(URI, HAND)
    able = editor.begin()
    check("before initialize", early["code"] == EARLY, early)
    check("what it can", able["capabilities"]["textDocumentSync"]["change"] == 2 and all(able["capabilities"][it + "Provider"] for it in (
        "hover", "definition", "references", "completion", "documentSymbol", "foldingRange", "documentFormatting")), able)
    unopened = editor.of("hover", URI, position={"line": 0, "character": 0})
    check("a notification before initialize", unopened["code"] == PARAMETERS, unopened)
    check("shutdown", editor.ask("shutdown") is None)
    late = editor.of("hover", URI, position={"line": 0, "character": 0})
    check("after shutdown", late["code"] == INVALID, late)
    editor.tell("exit")
    check("exit after shutdown", editor.over() == (0, ""))
    for name, act in (("exit before shutdown", lambda it: it.tell("exit")), ("the end of the input", lambda it: it.running.stdin.close()),
                      ("an end inside of a message", lambda it: (it.write(b"Content-Length: 9\r\n\r\n{"), it.running.stdin.close()))):
        editor = starts()
        act(editor)
        status = editor.running.wait(timeout=60)
        check(name, status == 1, status)
    check("nobody reads", unheard(place_of) == 3)
    for odd in ("</", "<&-", "</dev/null >&-", "</dev/null 2>&-", "</dev/null 2>/dev/full"):
        seen = place_of.call("-c", '"$0" lsp %s' % odd, place_of.command, command="bash")
        check("streams: %s" % odd, seen == (1, "", ""), seen)
    helps, fault = (0, "bin/rohcfn lsp"), (2, "error: unexpected argument 'x' found\n")
    for words, due in ((["lsp", "--help"], helps), (["help", "lsp"], helps), (["lsp", "x"], fault), (["lsp", "--stdio", "x"], fault)):
        status, printed, said = place_of.call(*words)
        check("words: %s" % words, (status, printed) == (due[0], "") and due[1] in said, (status, printed, said))


def unheard(place_of):
    """The status of a server whose answers nobody reads."""
    reads, writes = os.pipe()
    os.close(reads)
    with subprocess.Popen([place_of.command, "lsp"], stdin=subprocess.PIPE, stdout=writes, cwd=place_of.files, env=place_of.environment) as running:
        os.close(writes)
        running.stdin.write(framed('{"jsonrpc":"2.0","id":1,"method":"initialize","params":{}}'))
        running.stdin.flush()
        return running.wait(timeout=60)


# A program that takes its time, or isn't there.

SLOW = """#!/bin/sh
cat >"$0.input"
grep -c . "$0.input" >>"$0.calls"
if grep -q sleeps "$0.input"; then echo $$ >>"$0.slow"; exec sleep 60; fi
if grep -q fails "$0.input"; then exit 3; fi
if [ "$1" = check ]; then echo '{"kind":"accepted"}'; fi
"""


def slow(place_of):
    """A run that takes above 5 seconds is ended and told; of keys in a row one run is made; a newer text ends the run for the one before."""
    program = place_of.root / "crates" / "rohcfn" / "out" / "rohcfn"
    program.unlink()
    program.write_text(SLOW)
    program.chmod(0o755)
    editor = Editor(place_of.command, cwd=place_of.files, env=place_of.environment)
    editor.begin()
    text = "a { } // %s"
    editor.open(URI, text % "first")
    check("a program that accepts", editor.told(URI) == [], None)
    calls = program.with_name("rohcfn.calls")
    before = len(calls.read_text().split())
    keys = [{"textDocument": {"uri": URI, "version": it}, "contentChanges": [{"text": text % it}]} for it in range(2, 42)]
    editor.write(b"".join(framed(json.dumps({"jsonrpc": "2.0", "method": "textDocument/didChange", "params": it})) for it in keys))
    found = editor.told(URI, 41)
    check("keys in a row", found == [] and len(calls.read_text().split()) == before + 2 and not editor.apart, (calls.read_text(), editor.apart))
    editor.change(URI, 42, {"text": text % "sleeps"})
    check("a run begins", waits(lambda: program.with_name("rohcfn.slow").exists()))
    editor.change(URI, 43, {"text": text % "newer"})
    check("the newest wins", editor.told(URI, 43) == [] and not [it for it in editor.apart if it.get("params", {}).get("version") == 42])
    number = program.with_name("rohcfn.slow").read_text().split()[0]
    check("the run before is ended", waits(lambda: not first_call.is_running(number)))
    begun = time.monotonic()
    editor.change(URI, 44, {"text": "// top: sleeps\nb { } a { } c { }"})
    found, took = editor.told(URI, 44), time.monotonic() - begun
    seen = [(it["message"], it["severity"], it["range"]["start"]) for it in found]
    check("a run that is too long", seen == [(runs.LATE, 3, place("", 0))] and took > runs.LONGEST, found)
    numbers = program.with_name("rohcfn.slow").read_text().split()
    check("is ended", len(numbers) == 2 and waits(lambda: not first_call.is_running(numbers[1])), numbers)
    editor.change(URI, 45, {"text": "a { }\nfails { }\n"})
    found = [(it["message"], it["severity"], it["range"]["start"]["line"]) for it in editor.told(URI, 45)]
    check("a program that fails", found == [(runs.FAILED % 3, 3, 1)], found)
    editor.change(URI, 46, {"text": "a { }"})
    check("and answers again", editor.told(URI, 46) == [])
    program.unlink()
    editor.change(URI, 47, {"text": "a { }"})
    found = [it["message"] for it in editor.told(URI, 47)]
    check("a program that is gone", found == [runs.UNRUN % "No such file or directory"], found)
    check("the session goes on", editor.of("foldingRange", URI) == [] and editor.end() == (0, ""))


class Clock:
    """A clock that is set, and a runner that notes what it is to run on."""

    def __init__(self):
        self.now, self.asked = 0, []

    def monotonic(self):
        return self.now

    def ask(self, job):
        self.asked.append(job.text.text)

    def drop(self, key):
        pass


def quiet():
    """The program runs once a document is opened or saved, and else after 200 milliseconds without a key."""
    clock, kept, sent = Clock(), sessions.time, []
    sessions.time = clock
    session = sessions.Session(sent.append, clock)

    def key(method, now, **params):
        clock.now = now
        session.take({"jsonrpc": "2.0", "method": "textDocument/" + method, "params": {"textDocument": {"uri": URI, "version": 1, "text": "opened"}, **params}})
        session.run_due()

    def passes(now):
        clock.now = now
        session.run_due()
    session.take({"jsonrpc": "2.0", "id": 1, "method": "initialize", "params": {}})
    key("didOpen", 1)
    check("a document is opened", clock.asked == ["opened"] and session.pending() is None, clock.asked)
    for now, text in ((10, "one"), (10.1, "two"), (10.25, "three"), (10.4, "four")):
        key("didChange", now, contentChanges=[{"text": text}])
        check("keys", clock.asked == ["opened"] and abs(session.pending() - 0.2) < 1e-6, (now, clock.asked))
    passes(10.59)
    check("not quiet for long enough", clock.asked == ["opened"], clock.asked)
    passes(10.61)
    check("quiet", clock.asked == ["opened", "four"] and session.pending() is None, clock.asked)
    key("didChange", 20, contentChanges=[{"text": "five"}])
    key("didSave", 20.01)
    check("saved", clock.asked == ["opened", "four", "five"], clock.asked)
    generation = session.documents[URI].generation
    for it in (generation - 1, generation):
        session.found(runs.Job(URI, it, None, "top"), [])
    check("what is found in a text before", len(sent) == 2 and sent[1]["method"] == PUBLISHED, sent)
    sessions.time = kept


def ended():
    """A run that ends by itself just when it is to be broken off."""
    over = subprocess.Popen(["true"], start_new_session=True)
    over.wait()
    job = runs.Job(URI, 1, texts.Text(""), "top")
    job.running = types.SimpleNamespace(pid=over.pid, returncode=None)
    try:
        job.break_off()
    except OSError as why:
        check("a run that has ended", False, why)
    check("is broken off", job.broken)


class Standing:
    """A program that stands there, and stops at once."""

    def stands(self):
        return True

    def stop(self):
        pass


def newest():
    """A newer text of a document breaks off the run for the one before, and one of another document doesn't; what waits gives way to it, too. An error on the
    way is said, and ends nothing else."""
    goes_on, told_of, said, kept = threading.Event(), [], [], runs.terminal
    runs.terminal = types.SimpleNamespace(writes=said.append)

    def find(job, _):
        goes_on.wait()
        return 1 // job.generation  # (an error with the first)

    runner = runs.Runner(Standing(), find, lambda job, answer: told_of.append(job.generation))
    runner.start()
    jobs = [runs.Job(key, number, texts.Text(""), "top") for number, key in enumerate(("one", "two", "two", "one", "one"))]
    runner.ask(jobs[0])
    check("a run begins", waits(lambda: runner.current is jobs[0]))
    for it in jobs[1:3]:
        runner.ask(it)
    check("another document", not jobs[0].broken)
    for it in jobs[3:]:
        runner.ask(it)
    check("a newer text breaks off", jobs[0].broken)
    goes_on.set()
    check("the newest of each", waits(lambda: len(told_of) == 2) and sorted(told_of) == [2, 4], told_of)
    check("an error is said", len(said) == 1 and "ZeroDivisionError" in said[0], said)
    runner.stop()
    runs.terminal = kept


MADE = """#!/bin/sh
cat >/dev/null
if [ "$1" = check ]; then
  echo '{"kind":"fault","part":"profile","line":1,"column":3,"number":null,"code":"E10","text":"unexpected token"}'
else
  echo "profile:1:3: E10 unexpected token"
fi
exit 1
"""


def unbuilt(folder):
    """Where no program stands, that is said once, and what is told comes as soon as one is ready."""
    made = first_call.Place(folder)
    made.give_compiler()
    made.tell("program", MADE)
    (made.tools / "python3").symlink_to(sys.executable)
    editor = Editor(made.program, **made.how)
    editor.begin()
    editor.open(URI, "a ; b")
    said = editor.next(lambda it: it.get("method") == "window/showMessage")
    check("no program yet", said["params"]["message"] == "rohcfn: " + runs.BUILDING, said)
    check("all else works", editor.of("foldingRange", URI) == [])
    found = editor.told(URI)
    check("once it is ready", [(it["code"], it["range"]["start"]["character"]) for it in found] == [("E10", 2)], found)
    check("it is said once", not [it for it in editor.apart if it.get("method") == "window/showMessage"], editor.apart)
    check("and ends", editor.end() == (0, ""))
    lacking = first_call.Place(folder + "/lacking")
    (lacking.tools / "python3").symlink_to(sys.executable)
    editor = Editor(lacking.program, **lacking.how)
    editor.begin()
    editor.open(URI, "a ; b")
    said = editor.next(lambda it: it.get("method") == "window/showMessage")
    check("none that is kept", "none is kept (%s)" % first_call.NO_FLOCK in said["params"]["message"] and editor.end() == (0, ""), said)


def main():
    with tempfile.TemporaryDirectory() as folder:
        place_of, fake = Place(folder, "a copy", built()), Place(folder, "a slow copy", None)
        editor = Editor(place_of.command, cwd=place_of.files, env=place_of.environment)
        editor.begin()
        hostile(editor)
        check("the end", editor.end() == (0, ""))
        lives(place_of)
        quiet()
        newest()
        ended()
        slow(fake)
        unbuilt(folder + "/unbuilt")
    return check.status()


if __name__ == "__main__":
    sys.exit(main())
