"""A session with an editor: its documents, and what is answered to each message."""
import time
import traceback

from .. import terminal
from . import diagnostics, layout, outline, pages
from .completions import Completions
from .hovers import Hovers
from .messages import CANCELLED, INTERNAL, INVALID, NOT_INITIALIZED, PARAMETERS, UNKNOWN, Fault, Gone
from .names import Names
from .runs import Job
from .texts import Text

QUIET = 0.2  # seconds without a key before the program runs
FULL_AND_INCREMENTAL = 2
INFORMATION = 3  # of a message that is shown
CAPABILITIES = {
    "positionEncoding": "utf-16",
    "textDocumentSync": {"openClose": True, "change": FULL_AND_INCREMENTAL, "save": {"includeText": False}},
    "hoverProvider": True,
    "definitionProvider": True,
    "referencesProvider": True,
    "completionProvider": {"triggerCharacters": [".", "="]},
    "documentSymbolProvider": True,
    "foldingRangeProvider": True,
    "documentFormattingProvider": True,
}


class Document:
    """A document that is open: its text, what is known of the names in it, and what is shown of what the program told of it last."""

    def __init__(self, uri):
        self.uri, self.version, self.text, self.generation = uri, None, None, 0
        self.known, self.shown = None, []

    def take(self, version, text, generation):
        """Takes a text, with the editor's number of it and one that no other text of the session has."""
        self.version, self.text, self.known, self.generation = version, text, None, generation

    def names(self):
        if self.known is None:
            self.known = Names(self.text.text)
        return self.known


def the(params, *path):
    """A value inside of parameters; a fault where it isn't there."""
    found = params
    for it in path:
        if not isinstance(found, dict) or it not in found:
            raise Fault(PARAMETERS, "%s is needed" % ".".join(path))
        found = found[it]
    return found


def text_of(params, *path):
    found = the(params, *path)
    if not isinstance(found, str):
        raise Fault(PARAMETERS, "%s is a text" % ".".join(path))
    return found


def is_position(value):
    return isinstance(value, dict) and all(type(value.get(it)) is int and value[it] >= 0 for it in ("line", "character"))


def position_of(value):
    if not is_position(value):
        raise Fault(PARAMETERS, "a position has a line and a character")
    return value


class Session:
    """Answers messages. `send` writes one, `runner` runs the program on texts."""

    def __init__(self, send, runner):
        self.send, self.runner = send, runner
        self.documents, self.due, self.generations = {}, {}, 0
        self.state, self.client = "begun", {}
        self.requests = {
            "initialize": self.initialize, "shutdown": self.shutdown, "textDocument/hover": self.hover, "textDocument/definition": self.definition,
            "textDocument/references": self.references, "textDocument/completion": self.completion, "textDocument/documentSymbol": self.symbols,
            "textDocument/foldingRange": self.folds, "textDocument/formatting": self.formatting,
        }
        self.notices = {
            "textDocument/didOpen": self.opened, "textDocument/didChange": self.changed, "textDocument/didSave": self.saved,
            "textDocument/didClose": self.closed,
        }

    def take(self, message, is_cancelled=False):
        """Answers a message, or a fault in place of one; the status of the server where it ends."""
        if isinstance(message, Fault):
            self.refuse(None, message)
            return None
        method, number = message.get("method"), message.get("id")
        if method is None and ("result" in message or "error" in message):
            return None
        is_number = number is None or type(number) in (int, float, str)
        if message.get("jsonrpc") != "2.0" or not isinstance(method, str) or not is_number:
            self.refuse(number if is_number else None, Fault(INVALID, "this is no request of JSON-RPC 2.0"))
        elif method == "exit":
            return 0 if self.state == "ending" else 1
        elif "id" in message:
            self.request(number, method, message.get("params"), is_cancelled)
        else:
            self.notice(method, message.get("params"))
        return None

    def refuse(self, number, fault):
        self.send({"id": number, "error": {"code": fault.code, "message": str(fault)}})

    def request(self, number, method, params, is_cancelled):
        """Answers a request by its result or by a fault."""
        try:
            if is_cancelled:
                raise Fault(CANCELLED, "the request was cancelled")
            if self.state == "begun" and method != "initialize":
                raise Fault(NOT_INITIALIZED, "initialize comes first")
            if self.state == "ending":
                raise Fault(INVALID, "after shutdown comes exit")
            if method not in self.requests:
                raise Fault(UNKNOWN, "%.100s is not known" % method)
            self.send({"id": number, "result": self.requests[method](params if isinstance(params, dict) else {})})
        except Fault as why:
            self.refuse(number, why)
        except Gone:
            raise
        except Exception as why:  # (a slip of this server ends one answer, and not the session)
            terminal.writes(traceback.format_exc())
            self.refuse(number, Fault(INTERNAL, "%s: %s" % (type(why).__name__, why)))

    def notice(self, method, params):
        """Takes a notification. One that isn't known, or is wrong, changes nothing."""
        if self.state != "ready" or method not in self.notices:
            return
        try:
            self.notices[method](params)
        except Fault as why:
            self.log("%s: %s" % (method, why))
        except Gone:
            raise
        except Exception:
            terminal.writes(traceback.format_exc())

    def log(self, words):
        self.send({"method": "window/logMessage", "params": {"type": 2, "message": "rohcfn: " + words}})

    def say(self, words):
        self.send({"method": "window/showMessage", "params": {"type": INFORMATION, "message": "rohcfn: " + words}})

    # The life of a session.

    def initialize(self, params):
        if self.state != "begun":
            raise Fault(INVALID, "initialize comes once")
        self.state, self.client = "ready", params.get("capabilities") if isinstance(params.get("capabilities"), dict) else {}
        return {"capabilities": CAPABILITIES, "serverInfo": {"name": "rohcfn"}}

    def can(self, *path):
        """What the editor says of itself."""
        found = self.client
        for it in path:
            found = found.get(it) if isinstance(found, dict) else None
        return found is True

    def shutdown(self, _):
        self.state = "ending"
        for uri in list(self.documents):
            self.runner.drop(uri)
        self.due.clear()

    # Documents.

    def opened(self, params):
        uri, text = text_of(params, "textDocument", "uri"), text_of(params, "textDocument", "text")
        self.documents[uri] = Document(uri)
        self.take_text(self.documents[uri], params, Text(text))
        self.due[uri] = time.monotonic()

    def take_text(self, document, params, text):
        """Takes a new text of a document; what runs on the one before ends."""
        self.generations += 1
        document.take(params["textDocument"].get("version"), text, self.generations)
        self.runner.drop(document.uri)

    def changed(self, params):
        document = self.document(params)
        text = document.text
        for it in the(params, "contentChanges"):
            text_of(it, "text")
            if it.get("range") is not None:
                position_of(the(it, "range", "start"))
                position_of(the(it, "range", "end"))
            text = text.changed(it)
        self.take_text(document, params, text)
        self.due[document.uri] = time.monotonic() + QUIET

    def saved(self, params):
        document = self.document(params)
        if document.uri in self.due:
            self.due[document.uri] = time.monotonic()

    def closed(self, params):
        document = self.document(params)
        del self.documents[document.uri]
        self.due.pop(document.uri, None)
        self.runner.drop(document.uri)
        self.send({"method": "textDocument/publishDiagnostics", "params": {"uri": document.uri, "diagnostics": []}})

    def document(self, params):
        uri = text_of(params, "textDocument", "uri")
        if uri not in self.documents:
            raise Fault(PARAMETERS, "%.200s is not open" % uri)
        return self.documents[uri]

    def pending(self):
        """In how many seconds a text is to be run on, or None."""
        return max(0, min(self.due.values()) - time.monotonic()) if self.due else None

    def run_due(self):
        """Hands over the texts after whose last key it has been quiet."""
        now = time.monotonic()
        for uri in [it for it, when in self.due.items() if when <= now]:
            del self.due[uri]
            document = self.documents[uri]
            self.runner.ask(Job(uri, document.generation, document.text, diagnostics.top_of(document.text.text)))

    def found(self, job, shown):
        """Shows what was found in a text, where no newer one came."""
        document = self.documents.get(job.key)
        if document is None or document.generation != job.generation:
            return
        document.shown = shown
        if not self.can("textDocument", "publishDiagnostics", "relatedInformation"):
            shown = [{name: value for name, value in it.items() if name != "relatedInformation"} for it in shown]
        params = {"uri": document.uri, "diagnostics": shown}
        if type(document.version) is int:
            params["version"] = document.version
        self.send({"method": "textDocument/publishDiagnostics", "params": params})

    # What is asked of a document.

    def at(self, params):
        """The document and the offset of a position."""
        document = self.document(params)
        return document, document.text.offset(position_of(the(params, "position")))

    def hover(self, params):
        document, offset = self.at(params)
        told = Hovers(document.names()).at(offset)
        codes = [it["code"] for it in document.shown if holds(it["range"], params["position"])]
        said = [it for it in map(pages.told, dict.fromkeys(codes)) if it is not None]
        value = "\n\n---\n\n".join([told[0], *said] if told else said)
        if not value:
            return None
        found = {"contents": {"kind": "markdown", "value": value}}
        return {**found, "range": document.text.range(told[1], told[2])} if told else found

    def places(self, document, uses):
        return [{"uri": document.uri, "range": document.text.range(it.start, it.start + len(it.name))} for it in uses]

    def definition(self, params):
        document, offset = self.at(params)
        use = document.names().use_at(offset)
        found = document.names().definition(use) if use is not None else None
        return self.places(document, [found])[0] if found is not None else None

    def references(self, params):
        document, offset = self.at(params)
        use = document.names().use_at(offset)
        if use is None:
            return []
        context = params.get("context")
        is_whole = not isinstance(context, dict) or context.get("includeDeclaration") is not False
        defined = document.names().definition(use)
        return self.places(document, [it for it in document.names().every(use) if is_whole or it is not defined])

    def completion(self, params):
        document, offset = self.at(params)
        has_snippets = self.can("textDocument", "completion", "completionItem", "snippetSupport")
        return {"isIncomplete": False, "items": Completions(document.names(), has_snippets).at(offset)}

    def symbols(self, params):
        document = self.document(params)
        found = outline.symbols(document.text, document.names())
        return found if self.can("textDocument", "documentSymbol", "hierarchicalDocumentSymbolSupport") else list(outline.flat(document.uri, found))

    def folds(self, params):
        return outline.folds(self.document(params).text)

    def formatting(self, params):
        document = self.document(params)
        text, made = document.text.text, layout.laid_out(document.text.text)
        return [] if made == text else [edit(document.text, made)]


def holds(whole, position):
    """Whether a position is in a range, or at its end."""
    start, end, at = [(it["line"], it["character"]) for it in (whole["start"], whole["end"], position)]
    return start <= at <= end


def edit(text, made):
    """The change of a text to another one: of the lines between the first and the last that differ."""
    old, new = text.text.splitlines(keepends=True), made.splitlines(keepends=True)
    front = next((at for at, (one, two) in enumerate(zip(old, new)) if one != two), min(len(old), len(new)))
    back = next((at for at, (one, two) in enumerate(zip(reversed(old[front:]), reversed(new[front:]))) if one != two), min(len(old), len(new)) - front)
    start = sum(map(len, old[:front]))
    end = len(text.text) - sum(map(len, old[len(old) - back:]))
    return {"range": text.range(start, end), "newText": "".join(new[front:len(new) - back])}
