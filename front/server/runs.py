"""Runs the program on texts: the one that bin/rohcfn would run, for how long, and that the newest text wins."""
import contextlib
import os
import signal
import subprocess
import tempfile
import threading
import time
import traceback

from .. import parts, terminal

ROOT = os.path.dirname(os.path.dirname(os.path.dirname(os.path.realpath(__file__))))
FILTER = os.path.join(ROOT, "bin", "rohcfn")
LONGEST = 5  # seconds that the runs for a text may take
AGAIN = 30  # seconds after which it is asked anew which program stands
POLL = 1  # seconds between two looks whether a program stands that is being made
MAKING = 900  # seconds after which a program that isn't there is no longer waited for
TEXT = (1 << 20) + 1  # octets of a text that the program gets; one that has so many is above its limit whatever follows
# Prints the program that bin/rohcfn would run behind `stands`, and where it would run none behind `lacks` why none is kept; by the lines of the same scripts.
STANDING = """root=$1; source "$root/front/built.sh"; source "$root/front/kept.sh"
if [ -x "$program" ] && { [ -n "$2" ] || is_current; }; then echo "stands $program"; elif is_kept; then echo "stands $kept"; else echo "lacks $(lacks)"; fi"""
BUILDING = ("no program stands here yet: an unproved one is being made, which takes some minutes, and faults are shown once it is ready; "
            "until then all else of the language server works")


LATE = "the program took more than %d seconds and was ended: this text is not checked, or not to its end" % LONGEST
UNRUN = "the program can't be run (%s): this text is not checked"
FAILED = "the program gave no answer, and ended with status %d: this text is not checked, or not to its end"


class Over(Exception):
    """The runs for a text are over before their end: with words that are to be shown, or with none where a newer text came."""


class Job:
    """A text to be run on. Another thread may break it off."""

    def __init__(self, key, generation, text, top):
        self.key, self.generation, self.text, self.top = key, generation, text, top
        self.until, self.broken, self.running, self.lock = None, False, None, threading.Lock()

    def begin(self):
        self.until = time.monotonic() + LONGEST

    def end_run(self):
        """Ends the process that runs, with all that it started. (It may end by itself at that moment.)"""
        if self.running is not None and self.running.returncode is None:
            with contextlib.suppress(ProcessLookupError):
                os.killpg(self.running.pid, signal.SIGKILL)

    def break_off(self):
        with self.lock:
            self.broken = True
            self.end_run()

    def run(self, call, given):
        """What a call prints of some octets."""
        with self.lock:
            if self.broken:
                raise Over
            self.running = subprocess.Popen(call, stdin=given, stdout=subprocess.PIPE, stderr=subprocess.DEVNULL, start_new_session=True)
        try:
            printed, _ = self.running.communicate(timeout=max(0, self.until - time.monotonic()))
        except subprocess.TimeoutExpired:
            self.end_run()
            self.running.communicate()
            raise Over(LATE) from None
        if self.broken:
            raise Over
        if self.running.returncode not in (0, 1):
            raise Over(FAILED % self.running.returncode)
        return printed


class Program:
    """The program that bin/rohcfn would run: the proved one, else the unproved one that is kept. Where neither stands, a first call makes one."""

    def __init__(self, as_built):
        self.as_built, self.path, self.asked, self.why = as_built, None, None, ""
        self.maker, self.said, self.begun = None, None, None

    def stands(self):
        """Whether a program stands here. It is looked for again after a while, since the sources may change."""
        if self.path is not None and self.asked is not None and time.monotonic() - self.asked < AGAIN:
            return True
        ran = subprocess.run(["bash", "-c", STANDING, "bash", ROOT, "1" if self.as_built else ""], stdin=subprocess.DEVNULL, capture_output=True, check=False)
        word, _, rest = os.fsdecode(ran.stdout).removesuffix("\n").partition(" ")
        self.path, self.why, self.asked = (rest, "", time.monotonic()) if word == "stands" else (None, rest, None)
        return self.path is not None

    def call(self, job, command, text):
        """What a command prints of a text."""
        octets = text.encode("utf-8", "surrogatepass")[:TEXT]
        try:
            with tempfile.TemporaryFile() as file:
                file.write(parts.bundle({}, octets))
                file.seek(0)
                return job.run([self.path, *command, "--top", job.top], file)
        except (Over, OSError) as why:
            self.asked = None  # (another program may stand there by now)
            raise (why if isinstance(why, Over) else Over(UNRUN % why.strerror)) from None

    def make(self):
        """Begins to make a program, by a first call. What is to be said of that."""
        self.begun = time.monotonic()
        if self.why:
            return "no program stands here, and none is kept (%s): no faults are shown; bin/prove proves and builds the program" % self.why
        self.said = tempfile.TemporaryFile()
        with tempfile.TemporaryFile() as file:
            file.write(parts.bundle({}, b""))
            file.seek(0)
            hidden = {it: value for it, value in os.environ.items() if not it.startswith("ROHCFN_")}
            how = {"stdin": file, "stdout": subprocess.DEVNULL, "stderr": self.said, "env": hidden, "start_new_session": True}
            self.maker = subprocess.Popen([FILTER, "--", "show", "--top", "top"], **how)
        return BUILDING

    def failure(self):
        """Why no program will come, or None while one may."""
        if self.maker is None or self.maker.poll() is None:
            return None
        if self.maker.returncode not in (0, 1):
            self.said.seek(0)
            last = self.said.read().decode(errors="replace").strip().rpartition("\n")[2]
            return "no program could be made, so no faults are shown: %s" % last
        if self.why or time.monotonic() - self.begun > MAKING:
            return "no program is kept (%s), so no faults are shown" % (self.why or "none came")
        return None

    def stop(self):
        """Ends what makes a program."""
        if self.maker is not None and self.maker.poll() is None:
            self.maker.terminate()


class Runner(threading.Thread):
    """Takes texts, of each document the newest, and hands over what is found in them: `find` of a job and what asks the program. `tell` gets each answer, and
    what is to be said."""

    def __init__(self, program, find, tell):
        super().__init__(daemon=True)
        self.program, self.find, self.tell = program, find, tell
        self.waiting, self.current, self.changed, self.over, self.is_told = {}, None, threading.Condition(), False, False

    def ask(self, job):
        """Runs the program on a text, as soon as it may; what runs on an older one of the same document ends."""
        with self.changed:
            self.drop(job.key)
            self.waiting[job.key] = job
            self.changed.notify()

    def drop(self, key):
        """Runs no more for a document. (The caller may hold the lock.)"""
        with self.changed:
            self.waiting.pop(key, None)
            if self.current is not None and self.current.key == key:
                self.current.break_off()

    def stop(self):
        with self.changed:
            self.over = True
            self.changed.notify()
            if self.current is not None:
                self.current.break_off()
        self.program.stop()

    def next(self):
        """Waits for a text; None at the end."""
        with self.changed:
            while not self.waiting and not self.over:
                self.changed.wait()
            if self.over:
                return None
            self.current = self.waiting.pop(next(iter(self.waiting)))
            return self.current

    def run(self):
        while (job := self.next()) is not None:
            try:
                self.answer(job)
            except Exception:  # (a slip of this server, or a system that starts no process, ends one answer, and not the session)
                terminal.writes(traceback.format_exc())
            with self.changed:
                self.current = None

    def answer(self, job):
        """Tells what is found in a text, where no newer one came meanwhile."""
        if self.has_program(job):
            job.begin()
            found = self.find(job, lambda command, text: self.program.call(job, command, text))
            if not job.broken:
                self.tell(job, found)

    def has_program(self, job):
        """Waits for a program, unless a newer text comes; whether one stands."""
        while not job.broken and not self.program.stands():
            if not self.is_told:
                self.is_told = True
                self.tell(None, self.program.make())
            elif (why := self.program.failure()) is not None:
                if self.program.maker is not None:
                    self.program.maker = None
                    self.tell(None, why)
            time.sleep(POLL)
        if not job.broken:
            self.is_told = False
        return not job.broken
