"""Messages of JSON-RPC, each below a header with its length: how they are read from octets, whatever comes, and how they are written."""
import json
import re

LONGEST = 16 << 20  # octets of a message; a longer one is skipped
HEAD = 8192  # octets of a header
BEGIN = b"content-length:"
LENGTH = re.compile(rb"^content-length:[ \t]*([0-9]{1,20})[ \t]*\r?$", re.IGNORECASE | re.MULTILINE)
END = re.compile(rb"\r?\n\r?\n")

PARSE, INVALID, UNKNOWN, PARAMETERS, INTERNAL = -32700, -32600, -32601, -32602, -32603  # the codes of JSON-RPC
NOT_INITIALIZED, CANCELLED = -32002, -32800  # and two of the protocol


class Gone(Exception):
    """Nobody reads what is written any more."""


class Fault(Exception):
    """What is answered in place of a result: a code and words."""

    def __init__(self, code, words):
        super().__init__(words)
        self.code = code


def refuse_constant(word):
    """JSON has no NaN and no Infinity."""
    raise ValueError(word)


def parsed(body):
    """The message that the octets of a body are, or a fault."""
    try:
        message = json.loads(body.decode(), parse_constant=refuse_constant)
    except (ValueError, RecursionError, MemoryError) as why:
        return Fault(PARSE, "this is no JSON: %s" % str(why)[:200])
    if isinstance(message, list):
        return Fault(INVALID, "the protocol has no batches")
    return message if isinstance(message, dict) else Fault(INVALID, "a message is an object")


class Reader:
    """Takes octets as they come, and gives the messages in them. What is no message is a fault; it goes on at the next header."""

    def __init__(self):
        self.waiting, self.skips, self.searched = bytearray(), False, 0

    def take(self, octets):
        """The messages, and faults, that end with these octets."""
        self.waiting += octets
        while (found := self.next()) is not None:
            yield found

    def next(self):
        """The next message or fault, or None where more octets are needed."""
        if self.skips and not self.found_header():
            return None
        end = END.search(self.waiting, max(0, self.searched - 4))
        if end is None:
            self.searched = len(self.waiting)
            return self.skip("a message begins with a header that has its length") if len(self.waiting) > HEAD or not self.may_begin() else None
        length = LENGTH.search(self.waiting[:end.start()])
        if length is None or end.start() > HEAD:
            return self.skip("a message begins with a header that has its length")
        if int(length.group(1)) > LONGEST:
            return self.skip("a message has at most %d octets" % LONGEST)
        last = end.end() + int(length.group(1))
        self.searched = end.start()
        if len(self.waiting) < last:
            return None
        body = bytes(self.waiting[end.end():last])
        del self.waiting[:last]
        self.searched = 0
        return parsed(body)

    def may_begin(self):
        """Whether what is there may become a header: its first line is a name and a colon, as far as it goes."""
        return re.match(rb"[A-Za-z-]*(\Z|:)", self.waiting) is not None

    def skip(self, words):
        """Leaves out what is there, up to the next header; the fault."""
        del self.waiting[:1]
        self.skips, self.searched = True, 0
        return Fault(PARSE, words)

    def found_header(self):
        """Whether the begin of a header is there: what stands before it is left out."""
        at = self.waiting.lower().find(BEGIN)
        del self.waiting[:at if at >= 0 else max(0, len(self.waiting) - len(BEGIN) + 1)]
        self.skips, self.searched = at < 0, 0
        return at >= 0


def written(message):
    """The octets of a message with its header."""
    body = json.dumps({"jsonrpc": "2.0", **message}, separators=(",", ":")).encode()
    return b"Content-Length: %d\r\n\r\n" % len(body) + body
