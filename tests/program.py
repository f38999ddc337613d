"""Finds the built program, and runs it: the one place that knows where it stands and how it is called."""
import contextlib
import os
import pathlib

ROOT = pathlib.Path(__file__).resolve().parent.parent
DOCS, EXAMPLES, CRATES = (ROOT / it for it in ("docs", "examples", "crates"))


def built(crate="rohcfn"):
    """The path of what is built of a crate: of the program, where none is named."""
    return CRATES / crate / "out" / crate


def bundle(words, profile, **parts):
    """A bundle of words, a profile and parts in this order. A part that is None is left out."""
    return "=== words\n%s\n=== profile\n%s" % (words, profile) + "".join("=== %s\n%s" % it for it in parts.items() if it[1] is not None)


@contextlib.contextmanager
def memory(octets=b""):
    """The number of an open file in memory with these octets, at its begin."""
    number = os.memfd_create("octets")
    try:
        os.write(number, octets)
        os.lseek(number, 0, os.SEEK_SET)
        yield number
    finally:
        os.close(number)


def octets_of(number):
    """All octets of such a file."""
    return os.pread(number, os.fstat(number).st_size, 0)


def run(text, program=None):
    """What the program prints of a bundle, and its status. (Files in memory and one call of the system take less time than `subprocess` with its pipes.)"""
    path = program or built()
    with memory(text if isinstance(text, bytes) else text.encode()) as given, memory() as printed:
        streams = [(os.POSIX_SPAWN_DUP2, given, 0), (os.POSIX_SPAWN_DUP2, printed, 1), (os.POSIX_SPAWN_OPEN, 2, os.devnull, os.O_WRONLY, 0)]
        _, status = os.waitpid(os.posix_spawn(path, [path], os.environ, file_actions=streams), 0)
        return octets_of(printed).decode(errors="replace"), os.waitstatus_to_exitcode(status)


def lines(text):
    """The lines that the program prints of a bundle, and its status."""
    printed, status = run(text)
    return printed.splitlines(), status
