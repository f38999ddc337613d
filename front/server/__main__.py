"""Runs the server: `python3 -m front.server [--as-built]`. One thread reads messages, one runs the program, and this one answers."""
import os
import queue
import sys
import threading

from .. import terminal
from . import diagnostics
from .messages import Gone, Reader, written
from .runs import Program, Runner
from .sessions import Session

CHUNK = 1 << 16  # octets that are read at a time
READ_AHEAD = 1000  # messages that are read before their turn


class Inbox:
    """What comes: messages from the editor, and what the program told. A request that is cancelled before its turn is noted."""

    def __init__(self):
        self.queue, self.waiting, self.cancelled, self.lock = queue.Queue(READ_AHEAD), [], set(), threading.Lock()

    def put(self, message):
        if isinstance(message, dict) and message.get("method") == "$/cancelRequest":
            params = message.get("params")
            number = params.get("id") if isinstance(params, dict) else None
            with self.lock:
                if type(number) in (int, str) and number in self.waiting:
                    self.cancelled.add(number)
            return
        if is_request(message):
            with self.lock:
                self.waiting.append(message["id"])
        self.queue.put(("message", message))

    def is_cancelled(self, message):
        """Whether a message that has its turn is a request which was cancelled before."""
        if not is_request(message):
            return False
        with self.lock:
            self.waiting.remove(message["id"])
            found = message["id"] in self.cancelled
            self.cancelled.discard(message["id"])
        return found

    def read(self):
        """Reads messages up to the end of standard input."""
        reader = Reader()
        while octets := self.more():
            for it in reader.take(octets):
                self.put(it)
        self.queue.put(("end", None))

    def more(self):
        try:
            return os.read(0, CHUNK)
        except OSError:
            return b""


def is_request(message):
    return isinstance(message, dict) and type(message.get("id")) in (int, str) and isinstance(message.get("method"), str)


def send(message):
    """Writes a message to standard output."""
    rest = memoryview(written(message))
    try:
        while rest:
            rest = rest[os.write(1, rest):]
    except OSError:
        raise Gone from None


def serve(inbox, session):
    """Answers until the end; the status."""
    while True:
        try:
            kind, it = inbox.queue.get(timeout=session.pending())
        except queue.Empty:
            session.run_due()
            continue
        if kind == "end":
            return 0 if session.state == "ending" else 1
        if kind == "message":
            status = session.take(it, inbox.is_cancelled(it))
            if status is not None:
                return status
        elif it[0] is None:
            session.say(it[1])
        else:
            session.found(*it)
        session.run_due()


def main(*words):
    terminal.fill()
    inbox = Inbox()
    runner = Runner(Program("--as-built" in words), diagnostics.find, lambda job, answer: inbox.queue.put(("told", (job, answer))))
    session = Session(send, runner)
    threading.Thread(target=inbox.read, daemon=True).start()
    runner.start()
    try:
        return serve(inbox, session)
    except KeyboardInterrupt:
        return 130
    except Gone:
        return 3
    finally:
        runner.stop()


if __name__ == "__main__":
    os._exit(main(*sys.argv[1:]))
