"""Puts a bundle together from files and words, and calls bin/rohcfn with it: `COMMAND PROFILE [OPTION ..]`. Or takes a bundle from standard input, to show a
fault of its profile: `[COMMAND --top NAME [FLAG ..]] --diagnose`. Before these words stands the number of a stream that is the caller's folder. docs/USAGE.md
shows each use."""
import os
import signal
import sys

from . import parts, streams, terminal
from .orders import Usage, order_of


def is_shown(order):
    """Whether a fault is to be shown besides: by --diagnose, or where all that is printed goes to a terminal."""
    return order.has("diagnose") or all(it is not None and it.isatty() for it in (sys.stdout, sys.stderr))


def answer(order):
    """Runs the program; its status. Where nothing is to be shown besides, nor made an object, the program takes the place of this one."""
    from .bundles import FILTER, call_of, call_on_bundle  # (these two take as long to load as all the rest, and words that are at fault need neither)
    from .pieces import Pieces
    words, bundle, profile = call_on_bundle(order) if order.takes_bundle() else call_of(order)
    if isinstance(words, Pieces):
        status = words.answer(bundle)
        if is_shown(order):
            from . import diagnosis
            diagnosis.show_of(FILTER, words.last_printed, *profile)
        return status
    with streams.file_of(bundle) as file:
        call, is_json = [FILTER, *words], order.has("json")
        if not is_shown(order) and not (is_json and len(bundle) > parts.BUNDLE):
            os.dup2(file.fileno(), 0)
            signal.signal(signal.SIGPIPE, signal.SIG_DFL)
            os.execv(FILTER, call)
        from . import diagnosis  # (what it needs takes as long to load as all the rest)
        return diagnosis.shown(call, file, is_json, *profile)


def ended(status, text):
    """The status of a call that ends with a text; what can't be written is told by the status alone."""
    return status if terminal.writes(text) else 3


def ran(folder, answer):
    """Does what is asked for, in a folder that is a stream's number; its status, or that of what went wrong, of which a line is told."""
    os.fchdir(int(folder))
    os.close(int(folder))
    terminal.fill()
    for it in (signal.SIGINT, signal.SIGCHLD):  # (where the caller takes no notice of what ends, it couldn't be waited for)
        signal.signal(it, signal.SIG_DFL)
    try:
        return answer()
    except Usage as why:
        return ended(2, "error: %s\n\nFor more information, try '--help'.\n" % why)
    except parts.BadInput as why:
        return ended(why.status, "rohcfn: %s\n" % why)
    except MemoryError:
        return ended(3, "error: out of memory\n")
    except OSError as why:
        return ended(3, "rohcfn: %s\n" % why.strerror)


def main(folder, *words):
    return ran(folder, lambda: answer(order_of(list(words))))


if __name__ == "__main__":
    sys.exit(main(*sys.argv[1:]))
