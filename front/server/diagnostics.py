"""What an editor shows at places of a text: what the program tells of it, with what helps."""
import re

from .. import advice, definitions, diagnosis, notation, parts
from . import names, runs, told
from .told import ERROR, INFORMATION

SOURCE = "rohcfn"
MOST = 100  # that are shown of one text
LONGEST = 1 << 18  # characters of a text in which is looked for what helps
TOP = re.compile(r"//[ \t]*top:[ \t]*([A-Za-z]\w*)[ \t]*\r?$", re.ASCII | re.MULTILINE)
HEADING = re.compile("^=== ", re.MULTILINE)


def top_of(text):
    """The top of a text: the method that a comment `// top: NAME` names, else the last one."""
    for found in TOP.finditer(text) if "top:" in text else ():
        token = next((it for it in notation.TOKEN.finditer(text, *line_of(text, found.start())) if it.start() == found.start()), None)
        if token is not None and token.lastgroup == "space":
            return found.group(1)
    return notation.top_of(text) or "top"


def line_of(text, offset):
    """The begin and the end of the line of an offset."""
    end = text.find("\n", offset)
    return text.rfind("\n", 0, offset) + 1, len(text) if end < 0 else end


class Finder:
    """Finds what is to be shown of a text, with the runs for it. `ask` gives what a command of the program prints of a text."""

    def __init__(self, job, ask):
        self.job, self.ask, self.text = job, ask, job.text

    def found(self):
        """What is to be shown. Where the runs are over before their end, what they told by then, and why that is so."""
        shown = []
        try:
            for it in self.all():
                shown.append(it)
                if len(shown) == MOST:
                    shown.append(self.at(shown[-1]["from"], 0, INFORMATION, "lint", "more is told of this text than the %d that are shown" % MOST))
                    break
        except runs.Over as why:
            shown += [self.at(self.top_start(), len(self.job.top), INFORMATION, None, it) for it in why.args]
        return [self.placed(it) for it in shown]

    def all(self):
        """What the program tells: the faults, or why there is no certificate, and then the warnings."""
        heading = HEADING.search(self.text.text)
        if heading is not None:
            yield self.at(heading.start(), 4, ERROR, None, "a line that begins with `=== ` can't stand in a bundle")
            return
        printed = self.ask(["check", "--explain", "--json"], self.text.text)
        fault = told.fault(printed)
        first = None if fault is None else diagnosis.fault_at(self.text.text, *fault.place, fault.code, fault.words)
        if first is not None:
            yield from map(self.fault, diagnosis.faults(first, lambda copy: self.ask(["show"], copy)))
            return
        refusal = fault or told.refusal(printed)
        if refusal is not None:
            yield self.refused(refusal)
        for it in told.warnings(self.ask(["lint", "--json"], self.text.text)):
            yield self.warned(it)

    def at(self, start, width, severity, code, message, related=()):
        return {"from": start, "width": width, "severity": severity, "code": code, "message": message, "related": list(related)}

    def placed(self, it):
        """What is shown, as the protocol has it."""
        start, last = min(it["from"], len(self.text.text)), len(self.text.text)
        shown = {"range": self.text.range(start, min(start + it["width"], last)), "severity": it["severity"], "source": SOURCE, "message": it["message"]}
        if it["code"] is not None:
            shown["code"] = it["code"]
        if it["related"]:
            places = [({"uri": self.job.key, "range": self.text.range(one, one + width)}, words) for one, width, words in it["related"]]
            shown["relatedInformation"] = [{"location": place, "message": words} for place, words in places]
        return shown

    def fault(self, fault):
        """A fault of the profile, with what helps, and the first definition where it is about a second one."""
        is_short = len(fault.text) <= LONGEST
        first = definitions.first_of(fault) if is_short else None
        related = [(first.start, len(first.name), definitions.says(fault))] if first is not None else []
        message = "\n".join([fault.words, *("help: " + it for it in (advice.hints(fault) if is_short else ()))])
        return self.at(fault.start, max(1, fault.width()) if fault.start < len(self.text.text) else 0, ERROR, fault.code, message, related)

    def refused(self, refusal):
        """Why there is no certificate, at the place that the program tells, else at the top; with the formats that it names."""
        start = self.text.of_lines(*refusal.place) if refusal.place is not None else self.top_start()
        start = self.top_start() if start is None else start
        related = list(self.formats(refusal.names)) if refusal.code == "P2" else []
        message, severity = "\n".join([refusal.words, *refusal.more]), ERROR
        if refusal.code in ("P1", "P2") and told.is_accepted(self.ask(["check", "--v2", "--json"], self.text.text)):
            message, severity = message + "\nwith --v2 there is a certificate, of version 2", INFORMATION
        return self.at(start, self.width(start), severity, refusal.code, message, related)

    def formats(self, named):
        """The places of formats that are named after their method."""
        method = next((it for it in names.Names(self.text.text).methods if named and it.name.text == named[0]), None)
        for section in method.sections if method is not None else ():
            if section.name is not None and section.name.text in named[1:]:
                yield section.name.start, len(section.name.text), "the format %s" % section.name.text

    def warned(self, it):
        start = self.text.of_lines(*it.place)
        start = 0 if start is None else start
        _, end = line_of(self.text.text, start)
        width = end - start if it.words.startswith("nothing is warned of") else self.width(start)
        return self.at(start, width, it.severity, it.code, it.words)

    def width(self, start):
        """How many characters the token at an offset has."""
        return advice.Fault(self.text.text, start, "", "").width()

    def top_start(self):
        """The offset of the top's name."""
        return next((it.name.start for it in names.Names(self.text.text).methods if it.name.text == self.job.top), 0)


def find(job, ask):
    """What is to be shown of the text of a job."""
    return Finder(job, ask).found()
