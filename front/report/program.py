"""Runs the program on one bundle, and reads the objects that it prints with --json (docs/FORMATS.md, JSON lines)."""
import concurrent.futures
import json
import subprocess

from .. import bundles, objects, parts, terminal

ROBUST = (0, 1, 3, 8)  # packets in a row that may be lost, as far as that many are asked for


class Program:
    """The program, called with a bundle and a top."""

    def __init__(self, top, bundle, flags):
        self.top, self.bundle, self.flags, self.calls = top, bundle, flags, 0

    def printed(self, command, *flags, bundle=None):
        """What a command prints. All calls but the first say nothing beside, unless they fail."""
        quiet, self.calls = subprocess.PIPE if self.calls else None, self.calls + 1
        words = [bundles.FILTER, "--", command, "--top", self.top, *flags]
        ran = subprocess.run(words, input=self.bundle if bundle is None else bundle, stdout=subprocess.PIPE, stderr=quiet, check=False)
        if ran.returncode not in (0, 1):
            if ran.stderr:
                terminal.writes(ran.stderr.decode(errors="replace"))
            raise parts.BadInput("the program ended with status %d for %s" % (ran.returncode, command), 3)
        return ran.stdout

    def objects(self, command, *flags):
        """What a command tells. (Of a bundle whose words aren't looked at yet a fault is told as text.)"""
        return [json.loads(it) if it.startswith(b"{") else objects.fault(it.decode()) for it in self.printed(command, *flags, "--json").splitlines()]

    def of_copy(self, text):
        """What `show` prints of a copy of the profile."""
        return self.printed("show", bundle=parts.bundle({}, text.encode()))


def of_kind(objects, *kinds):
    return [it for it in objects if it["kind"] in kinds]


def losses_of(lost):
    """The numbers of lost packets for which packets that survive them are counted."""
    return sorted({it for it in ROBUST if it <= lost} | {lost})


def told(program, lost, has_items):
    """What the commands tell, by a name for each call. Of a profile that is at fault `check` alone is asked, and without a certificate no headers are packed."""
    found = {"check": program.objects("check", "--explain", *program.flags)}
    faults = of_kind(found["check"], "fault")
    if any(it["part"] == "bundle" for it in faults):
        raise parts.BadInput("no page is made: bundle: %s %s" % (faults[0]["code"], faults[0]["text"]), 1)
    if any(it["part"] == "profile" for it in faults):
        return found
    calls = {"lint": ("lint",), "draw": ("draw",)}
    if not faults:
        calls["prove"] = ("prove", *program.flags)
    if not faults and has_items:
        calls |= {("robust", it): ("stats", "--robust=%d" % it, *program.flags) for it in reversed(losses_of(lost)) if it}
        calls |= {"loss": ("loss", "--lost=%d" % lost, *program.flags), "why": ("why", "--items", *program.flags)}
        calls |= {"stats": ("stats", *program.flags), "items": ("stats", "--by-item", *program.flags)}
    with concurrent.futures.ThreadPoolExecutor(max_workers=4) as pool:
        waiting = {name: pool.submit(program.objects, *words) for name, words in reversed(calls.items())}
        return found | {name: it.result() for name, it in waiting.items()}
