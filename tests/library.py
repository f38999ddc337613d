"""Uses the library rohcfn_c from C and Python, where it was built and a C compiler is there.

* All stored cases of `pack` and `unpack` give the same packets, items and faults through clients/python/rohcfn.py.
* The tests of clients/rust pass, where cargo is installed.
* clients/c/calls.c checks what each call answers, clients/c/refused.c refuses each allocation in turn, clients/c/items.c packs items there and back, and in
  clients/c/threads.c handles go from thread to thread.
* Where they are installed these also run with AddressSanitizer and ThreadSanitizer, and under valgrind, which counts what leaks.
* A profile of a mebibyte is refused or opened as the program does it.

It prints `skipped` and ends with 0 where no library was built, as after the gate's own proofs (docs/LIBRARY.md), or where there is no C compiler."""
import importlib
import os
import pathlib
import re
import shutil
import subprocess
import sys
import tempfile

from . import program
from .cases import cases

CLIENTS = program.ROOT / "clients"
ARCHIVE = pathlib.Path(os.environ.get("ROHCFN_ARCHIVE", program.CRATES / "rohcfn_c" / "out" / "librohcfn_c.a"))
LIMIT = 1 << 20


def compiler():
    """The C compiler, or None."""
    return shutil.which(os.environ.get("CC", "cc"))


def build(out, flags=""):
    """Builds the clients into a folder. Whether that was done."""
    ran = subprocess.run([CLIENTS / "build.sh", out], env=dict(os.environ, CFLAGS=flags), stderr=subprocess.PIPE, check=False)
    if ran.returncode:
        print("library: build.sh says %s" % ran.stderr.decode(errors="replace").strip())
    return ran.returncode == 0


def load(out):
    """The Python module over the library in a folder."""
    os.environ["ROHCFN_LIBRARY"] = str(out / "librohcfn_c.so")
    sys.path.insert(0, str(CLIENTS / "python"))
    return importlib.import_module("rohcfn")


# ---- the stored cases


def parts_of(text):
    """The parts of a bundle, by name."""
    found = {}
    for block in (b"\n" + text).split(b"\n=== ")[1:]:
        name, _, rest = block.partition(b"\n")
        if name in found:
            return {}
        found[name.decode(errors="replace")] = rest.rstrip(b"\n")
    return found


def asked_of(text):
    """The direction and the top of a bundle that the library can be asked for, with its parts; None for others."""
    parts = parts_of(text)
    words = re.fullmatch(r"(pack|unpack) --top ([^ ]+)( --context)?", parts.get("words", b"").decode(errors="replace"))
    if words is None or not {"profile", "items" if words[1] == "pack" else "packets"} <= set(parts) or "context" in parts:
        return None
    return words[1], words[2].encode(), parts


def bits_of(text):
    """Bits of a text as `18:96af00`."""
    count, _, digits = text.partition(":")
    return int(count), bytes.fromhex(digits)


def text_of(bits):
    """The text of bits."""
    return "%d:%s" % (bits[0], bits[1].hex())


def packed_line(session, line):
    """The line of the packet of an item."""
    header, *values = line.split()
    named = [it.partition("=") for it in values]
    names, asked = [it[0] for it in named], [bits_of(it[2]) for it in named]
    if names != [name for name, _ in session.asked]:
        return None
    return text_of(session.pack(bits_of(header), asked))


def read_line(session, line):
    """The line of the item of a packet."""
    header, asked, taken = session.unpack(bits_of(line))
    values = ["%s=%s" % (name, text_of(value)) for (name, _), value in zip(session.asked, asked)]
    return " ".join([text_of(header), *values, "took", str(taken)])


def answers(library, direction, top, parts):
    """The lines that the library leads to for a bundle, up to the first refusal, and how many were told; None for an item whose names only the program reads."""
    try:
        session = library.Session(top, parts["profile"] + b"\n", parts.get("certificate", b""), 1)
    except library.Fault as fault:
        return [fault.line]
    step, word = (packed_line, "item") if direction == "pack" else (read_line, "packet")
    lines = []
    with session:
        for number, line in enumerate(parts["items" if word == "item" else "packets"].decode().splitlines(), 1):
            if not line:
                continue
            try:
                lines.append(step(session, line))
            except library.Fault as fault:
                return lines + ["%s %d: %s" % (word, number, fault.line)]
            if lines[-1] is None:
                return None
    return lines


def is_same(due, found):
    """Whether the library's lines are the program's. Of asked values that don't suit the program also tells a name."""
    due = due.decode().split("=== context\n")[0].splitlines()
    return len(due) == len(found) and all(d == f or f.endswith(": F2 Asked") and d.startswith(f + " ") for d, f in zip(due, found))


def stored(library):
    """How many stored cases are the same through the library, and the names of those that differ."""
    same, wrong = 0, []
    for name, bundle, _, due in cases():
        asked = asked_of(bundle)
        if asked is None or re.match(rb"(bundle|items|packets|context)[: ]", due):
            continue
        try:
            found = answers(library, *asked)
        except ValueError:  # a part that the program's text side refuses
            continue
        if found is None:
            continue
        if is_same(due, found):
            same += 1
        else:
            wrong.append(name)
    return same, wrong


# ---- programs of C


def runs(words, due=b""):
    """Whether a program ends well, and prints what is due."""
    ran = subprocess.run([str(it) for it in words], stdout=subprocess.PIPE, stderr=subprocess.PIPE, check=False)
    if ran.returncode or due not in ran.stdout:
        print("library: %s: status %d, %s" % (words[0], ran.returncode, ran.stderr.decode(errors="replace")[-400:]))
        return False
    return True


def programs(out, before=()):
    """Whether each program of C ends well, with these words before it."""
    data = program.EXAMPLES / "data" / "tcp-client.items"
    profile = program.EXAMPLES / "profiles" / "tcp.profile"
    items = [out / "items", "tcp_ip", profile, data]
    return [runs([*before, out / name], name.encode() + b": ok") for name in ("calls", "refused", "threads")] + [runs([*before, *items], b" items, ")]


def watched(folder):
    """What the programs do under the tools that are installed: a list of outcomes, and the names of the tools."""
    done, tools = [], []
    for kind, tool in (("address", "AddressSanitizer"), ("thread", "ThreadSanitizer")):
        sanitized = folder / kind
        if can_sanitize(folder, kind) and build(sanitized, "-fsanitize=%s -g" % kind):
            done += programs(sanitized)
            tools.append(tool)
    if shutil.which("valgrind"):
        done += programs(folder, ["valgrind", "-q", "--error-exitcode=9", "--leak-check=full", "--errors-for-leak-kinds=all"])
        tools.append("valgrind")
    return done, tools


def can_sanitize(folder, kind):
    """Whether the compiler links programs with such a sanitizer."""
    source = folder / "nothing.c"
    source.write_text("int main(void) { return 0; }\n")
    words = [compiler(), "-fsanitize=%s" % kind, "-o", folder / "nothing", source]
    return subprocess.run(words, stderr=subprocess.DEVNULL, check=False).returncode == 0


# ---- what the cases don't have


def large(library):
    """Whether profiles of a mebibyte, and one octet more, are answered as the program does it."""
    small = b"plain { UNCOMPRESSED { a [8]; } COMPRESSED { a =:= irregular(8); } } "
    done = []
    for length in (LIMIT, LIMIT + 1):
        profile = small + b"/" * 2 + b"x" * (length - len(small) - 3) + b"\n"
        due, status = program.run(b"=== words\ncheck --top plain\n=== profile\n" + profile)
        try:
            library.Session(b"plain", profile).close()
            done.append(status == 0)
        except library.Fault as fault:
            done.append(status != 0 and fault.line == due.rstrip("\n"))
    return done


def sessions(library):
    """Whether flows and sessions are apart, closed ones refuse, and a context manager closes."""
    top, profile = b"tick", (CLIENTS / "tick.profile").read_bytes()
    header, more = (24, b"\0\1A"), (24, b"\0\2B")
    with library.Session(top, profile, flows=64) as one, library.Session(top, profile, flows=2) as other:
        first = one.pack(header, flow=63)
        done = [one.unpack(first, flow=63) == (header, [], first[0]), other.pack(header) == first, one.pack(more, flow=63) != one.pack(more, flow=0)]
        done += refuses(library.NoSuch, lambda: other.pack(header, flow=2)) + refuses(library.NoSuch, lambda: library.Session(top, profile, flows=65))
        one.reset(63)
        done.append(one.pack(header, flow=63) == first)
        one.robust(2, 0)
        done += [one.contexts(0) == 1, one.pack(more, flow=0)[0] > 0, one.contexts(0) > 1]
    return done + refuses(library.Closed, lambda: one.pack(header)) + refuses(library.Closed, lambda: one.reset())


def refuses(fault, call):
    """Whether a call raises a fault, as a list."""
    try:
        call()
    except fault:
        return [True]
    return [False]


def rust(folder):
    """Whether the tests of the Rust crate pass, where cargo is there; as a list."""
    if shutil.which("cargo") is None:
        return []
    kit = pathlib.Path(shutil.which("rt")).resolve().parent.parent
    variables = {"ROHCFN_LIBRARY": str(ARCHIVE.parent), "ROHCFN_C_LIBRARY": str(kit / "c"), "CARGO_TARGET_DIR": str(folder / "rust")}
    words = ["cargo", "test", "--offline", "--quiet"]
    ran = subprocess.run(words, cwd=CLIENTS / "rust", env=dict(os.environ, **variables), stdout=subprocess.DEVNULL, stderr=subprocess.PIPE, check=False)
    if ran.returncode:
        print("library: cargo test: %s" % ran.stderr.decode(errors="replace")[-400:])
    return [ran.returncode == 0]


def trial(folder):
    """What is printed last, and whether all is well."""
    out = pathlib.Path(folder)
    if not build(out):
        return "library: the clients were not built", False
    library = load(out)
    same, wrong = stored(library)
    for name in wrong:
        print("library: %s differs" % name)
    done, tools = watched(out)
    done += programs(out) + rust(out) + large(library) + sessions(library)
    line = "library: %d cases the same, %d differ; %d other trials passed, %d failed, with %s" % (same, len(wrong), sum(done), done.count(False), " and ".join(tools) or "no tool")
    return line, not wrong and same > 100 and all(done)


def main():
    if not ARCHIVE.is_file():
        print("library: skipped: no library was built")
        return 0
    if compiler() is None:
        print("library: skipped: no C compiler")
        return 0
    with tempfile.TemporaryDirectory() as folder:
        line, well = trial(folder)
    print(line)
    return 0 if well else 1


if __name__ == "__main__":
    sys.exit(main())
