"""An editor as the checks of the language server need one: it starts `bin/rohcfn lsp`, sends messages and octets, and reads what comes."""
import json
import os
import queue
import subprocess
import threading
import time

LONGEST = 120  # seconds that an answer is waited for, on whichever machine
PUBLISHED = "textDocument/publishDiagnostics"
CAPABLE = {"textDocument": {"publishDiagnostics": {"relatedInformation": True}, "documentSymbol": {"hierarchicalDocumentSymbolSupport": True},
                            "completion": {"completionItem": {"snippetSupport": True}}}}
URI = "file:///a%20folder/probe.fn"
# A profile with each kind of name.
HAND = """// top: probe
WIDTH = 4; /* \U0001d11e four */ COUNT = WIDTH * 2;
shared(flag, width)
{
  UNCOMPRESSED { field [width]; }
  COMPRESSED sent { ENFORCE(flag == 1); field =:= irregular(width) [width]; }
  COMPRESSED kept { ENFORCE(flag == 0); field =:= static [0]; }
}
/* \U0001d11e\U0001d11e */ probe
{
  UNCOMPRESSED { version =:= uncompressed_value(8, 1) [8]; hops [8]; sn [COUNT]; }
  CONTROL { told [2]; }
  DEFAULT { hops =:= shared(0, 8) [0, 8]; told =:= static [0]; check =:= crc(3, 0x06, 0x07, THIS.UVALUE, THIS.ULENGTH) [3]; }
  COMPRESSED same { kind =:= '0' [1]; hops; sn =:= lsb(WIDTH, 1) [WIDTH]; check; }
  COMPRESSED full { kind =:= '10' [2]; hops =:= shared(kind.CVALUE - 1, 8) [8]; told =:= irregular(2) [2]; sn =:= irregular(8) [8]; check; }
}
tail { UNCOMPRESSED { a [1]; } COMPRESSED { a =:= irregular(1) [1]; } }
"""


def at(text, marked, more=0):
    """The offset of the first place of a text at which another one stands, and so many characters beyond it."""
    assert marked in text, marked
    return text.index(marked) + more


def span(text, start, end):
    """The range of two offsets."""
    return {"start": place(text, start), "end": place(text, end)}


def framed(body, head="Content-Length: %d\r\n\r\n"):
    """A body below its header."""
    octets = body if isinstance(body, bytes) else body.encode()
    return (head % len(octets)).encode() + octets


def place(text, offset):
    """The position of an offset of a text by counting: lines end at CR, LF or both, and a character beyond the basic plane counts twice."""
    line = character = 0
    at = 0
    while at < offset:
        if text[at] == "\n" or text[at] == "\r":
            step = 2 if text[at:at + 2] == "\r\n" else 1
            if at + step > offset:
                break
            line, character, at = line + 1, 0, at + step
        else:
            character, at = character + (2 if ord(text[at]) > 0xFFFF else 1), at + 1
    return {"line": line, "character": character}


class Editor:
    """A session with the server of a copy. `answers` waits for the answer to a request, `told` for what is told of a document."""

    def __init__(self, command, words=(), **how):
        self.running = subprocess.Popen([command, "lsp", *words], stdin=subprocess.PIPE, stdout=subprocess.PIPE, stderr=subprocess.PIPE, **how)
        self.came, self.said, self.number, self.apart = queue.Queue(), [], 0, []
        self.threads = [threading.Thread(target=it, daemon=True) for it in (self.read, self.listen)]
        for it in self.threads:
            it.start()

    def read(self):
        """Reads messages, as the protocol has them and not otherwise."""
        stream = self.running.stdout
        while (line := stream.readline()):
            assert line.startswith(b"Content-Length: ") and line.endswith(b"\r\n") and stream.readline() == b"\r\n", line
            self.came.put(json.loads(stream.read(int(line.split()[1]))))
        self.came.put(None)

    def listen(self):
        """Keeps what is said on standard error."""
        self.said.append(self.running.stderr.read().decode(errors="replace"))

    def write(self, octets):
        self.running.stdin.write(octets)
        self.running.stdin.flush()

    def send(self, **message):
        self.write(framed(json.dumps({"jsonrpc": "2.0", **message})))

    def tell(self, method, **params):
        """Sends a notification."""
        self.send(method=method, params=params)

    def begin(self, **capabilities):
        """Begins the session; what the server says that it can."""
        found = self.ask("initialize", processId=None, rootUri=None, capabilities=capabilities or CAPABLE)
        self.tell("initialized")
        return found

    def next(self, holds):
        """The next message of which something holds, or None at the end; others are kept apart."""
        for at, it in enumerate(self.apart):
            if holds(it):
                return self.apart.pop(at)
        while (message := self.came.get(timeout=LONGEST)) is not None:
            if holds(message):
                return message
            self.apart.append(message)
        return None

    def begun(self, method, **params):
        """Sends a request; its number."""
        self.number += 1
        self.send(id=self.number, method=method, params=params)
        return self.number

    def answer(self, number):
        """The result of the request of a number, or its error."""
        message = self.next(lambda it: it.get("id") == number and "method" not in it)
        return None if message is None else message["result"] if "result" in message else message["error"]

    def ask(self, method, **params):
        return self.answer(self.begun(method, **params))

    def of(self, method, uri, **params):
        """The answer to a request about a document."""
        return self.ask("textDocument/" + method, textDocument={"uri": uri}, **params)

    def open(self, uri, text, version=1):
        self.tell("textDocument/didOpen", textDocument={"uri": uri, "languageId": "rohcfn", "version": version, "text": text})

    def change(self, uri, version, *changes):
        """Changes a document: by a whole text, or by an offset of the text before, an end and a new text there."""
        self.tell("textDocument/didChange", textDocument={"uri": uri, "version": version}, contentChanges=list(changes))

    def close(self, uri):
        self.tell("textDocument/didClose", textDocument={"uri": uri})

    def told(self, uri, version=1):
        """What is told of a version of a document."""
        message = self.next(lambda it: it.get("method") == PUBLISHED and it["params"]["uri"] == uri and it["params"].get("version") == version)
        return None if message is None else message["params"]["diagnostics"]

    def found(self, uri, text):
        """What is told of a text, which is opened and closed."""
        self.open(uri, text)
        found = self.told(uri)
        self.close(uri)
        return found

    def seconds(self):
        """The seconds of the processor that the server took, without those of the program; by the system's count of ticks."""
        with open("/proc/%d/stat" % self.running.pid, encoding="utf-8") as file:
            fields = file.read().rpartition(")")[2].split()
        return (int(fields[11]) + int(fields[12])) / os.sysconf("SC_CLK_TCK")

    def end(self):
        """Ends the session as the protocol has it; the status, and what was said on standard error."""
        self.ask("shutdown")
        self.tell("exit")
        return self.over()

    def over(self):
        """Waits for the end; the status and what was said."""
        try:
            status = self.running.wait(timeout=LONGEST)
        except subprocess.TimeoutExpired:
            self.running.kill()
            status = self.running.wait()
        for it in self.threads:
            it.join()
        self.running.stdin.close()
        return status, self.said[0]


def waits(holds, seconds=LONGEST):
    """Whether something holds before so many seconds are over."""
    until = time.monotonic() + seconds
    while not holds() and time.monotonic() < until:
        time.sleep(0.02)
    return holds()
