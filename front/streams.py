"""Files in memory, which are the streams of a program, and standard output, to which a process prints a text while the next one is made."""
import errno
import os
import sys

IN_MEMORY = hasattr(os, "memfd_create")


def file_of(octets=b""):
    """An open file with these octets, at its begin, in no folder."""
    if IN_MEMORY:
        file = os.fdopen(os.memfd_create("octets"), "w+b")
    else:
        import tempfile  # (it takes a while to load)
        file = tempfile.TemporaryFile()
    file.write(octets)
    file.seek(0)
    return file


def mapped(file):
    """The octets of a file, as they stand there: without a copy, and without one in a process that is forked."""
    import mmap  # (only what takes pieces needs it)
    return mmap.mmap(file.fileno(), 0, access=mmap.ACCESS_READ) if os.fstat(file.fileno()).st_size else b""


def fault_in(octets):
    """What stops octets on their way to standard output, or None."""
    rest = memoryview(octets)
    try:
        while rest:
            rest = rest[os.write(1, rest):]
    except OSError as why:
        return why
    return None


def number_in(blocks):
    """The number of the fault that stops blocks of octets, or 0."""
    for it in blocks:
        fault = fault_in(it) if sys.stdout is not None else OSError(errno.EBADF, "")
        if fault is not None:
            return fault.errno
    return 0


class Printer:
    """Prints texts, each by a process of its own; where no file is in memory, by this one."""

    def __init__(self):
        self.child, self.number = None, 0

    def begin(self, blocks):
        """Begins with a text, which is given in blocks. The one before has to be at its end."""
        if not IN_MEMORY:
            self.number = number_in(blocks)
            return
        self.child = os.fork()
        if self.child == 0:
            number = errno.EIO
            try:
                number = number_in(blocks)
            finally:
                os._exit(number)

    def end(self):
        """Waits for the end of a text; the number of the fault that stopped it, or 0, which is told once."""
        child, number = self.child, self.number
        self.child, self.number = None, 0
        return number if child is None else os.waitstatus_to_exitcode(os.waitpid(child, 0)[1])
