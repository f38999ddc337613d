"""Through the built program: certificates of sample profiles with each line left out, doubled, exchanged with the next one, and cut after it, and each number at the
end of a line one higher, of those of version 2 also with other references and as version 1; then the certificates of both versions that `prove` makes for the
samples and for small profiles, and what `check` says of these without one. What is printed is compared with what a second reading of the rules (reading.py) and a
second prover (proving.py) give."""
import sys

from .program import bundle, run
from .reference import proving, reading, samples, small

SAMPLES = ["tick", "opt", "seq", "wrap", "vast", "mode", "turn", "nest"]

# tests of references, in place of one in a certificate of mode or nest
REFERENCES = ["ref m -1", "ref m -0", "ref m 18446744073709551615", "ref m 18446744073709551616", "ref m %d" % (1 << 127), "ref d 0", "ref k 0", "ref s 0", "ref x 0", "ref m", "param k 2"]


def changed(text):
    """The text, and what a slip of one line makes of it."""
    lines = text.splitlines(keepends=True)
    yield "whole", text
    for i, line in enumerate(lines):
        yield "cut after line %d" % (i + 1), "".join(lines[: i + 1])
        yield "without line %d" % (i + 1), "".join(lines[:i] + lines[i + 1 :])
        yield "line %d twice" % (i + 1), "".join(lines[: i + 1] + lines[i:])
        *words, last = line.split()
        if last.isdigit():
            yield "line %d with a higher number" % (i + 1), "".join(lines[:i] + [" ".join(words + [str(int(last) + 1)]) + "\n"] + lines[i + 1 :])
        for other in REFERENCES if line.startswith("ref ") else []:
            yield "line %d as %s" % (i + 1, other), "".join(lines[:i] + [other + "\n"] + lines[i + 1 :])
        yield "line %d after the next" % (i + 1), "".join(lines[:i] + lines[i + 1 : i + 2] + [line] + lines[i + 2 :])
    if "certificate 2" in text:
        yield "as version 1", text.replace("certificate 2", "certificate 1")
    yield "with carriage returns and an empty line", text.replace("\n", "\r\n").replace("\r\n", "\r\n\r\n", 1)
    yield "without the last line feed", text[:-1]


def slips():
    """Words, profile, certificate and answer of each changed certificate."""
    for name in SAMPLES:
        for what, text in changed(samples.CERTIFICATES[name]):
            line, status = reading.answer(samples.NORMAL[name], samples.TOPS[name], text)
            yield "certificate of %s %s" % (name, what), "check --top %s" % name, samples.TEXTS[name], text, (line + "\n", status)


def proofs():
    """The same of each profile without a certificate: what `prove` prints in each version, and what `check` then says."""
    named = [(name, name, samples.TEXTS[name], samples.NORMAL[name]) for name in samples.NORMAL]
    drawn = small.profiles() + [it[:2] for it in small.referring()]
    for name, top, profile, methods in named + [("small profile %d" % i, "p", *it) for i, it in enumerate(drawn)]:
        for version, flag in ((1, ""), (2, " --v2")):
            text, status = proving.answer(methods, version)
            yield "proof of %s%s" % (name, flag), "prove --top %s%s" % (top, flag), profile, None, (text, status)
            line, status = (text, status) if status else reading.answer(methods, len(methods) - 1, text)
            yield "check of %s%s" % (name, flag), "check --top %s%s" % (top, flag), profile, None, (line.rstrip("\n") + "\n", status)


def main():
    passed = failed = 0
    for what, words, profile, text, due in [*slips(), *proofs()]:
        seen = run(bundle(words, profile, certificate=text))
        if seen == due:
            passed += 1
        else:
            print("%s: %r, and not %r" % (what, seen[0], due[0]))
            failed += 1
    print("certificates: %d passed, %d failed" % (passed, failed))
    sys.exit(1 if failed else 0)


if __name__ == "__main__":
    main()
