"""Whether the man page and the completion are those that front/manual.py makes, know the options of front/, and do what they are for.

The man page has no error by groff and man, where these are there; that each line is text or a macro of man with its words is tried anyway. The completion for
bash offers what it has to; that for zsh is read by zsh, where that is there. And the lines of docs/USAGE.md put all three in place."""
import os
import pathlib
import re
import shutil
import subprocess
import sys
import tempfile

from front import commands, manual
from .counting import Checks
from .program import ROOT

PAGE, BASH, ZSH = (ROOT / it for it in ("man/rohcfn.1", "completion/rohcfn.bash", "completion/_rohcfn"))
TABLE = commands.table()
COMMANDS = [*TABLE.commands, "help"]
WORDS = [*COMMANDS, *TABLE.apart()]  # all that may stand in the place of a command, but options
FIRST = [it for it in TABLE.own if it.startswith("-")]  # options in the place of a command
HERE = ["a file", "folder", "probe.fn"]
MACRO = re.compile(r'\.(TH ROHCFN 1 "" Tuxabelo "User Commands"|SH [A-Z ]+|TP|PP|nf|fi|br|\\".*)')
TEXT = re.compile(r"(?:[^\\.'-]|\\f[BIR]|\\-|\\e|\\\((?:aq|ga))(?:[^\\'-]|\\f[BIR]|\\-|\\e|\\\((?:aq|ga))*")
# Prints what is offered for each list of words, which comes after its count.
OFFERS = """source "$1"; shift
while (($# > 0)); do
  COMP_CWORD=$1 COMP_WORDS=(rohcfn "${@:2:$1}")
  shift $(($1 + 1))
  _rohcfn
  printf '%s\\n' "${COMPREPLY[@]}" ===
done"""
PLACED = {"man/man1/rohcfn.1": PAGE, "bash-completion/completions/rohcfn": BASH, "zsh/site-functions/_rohcfn": ZSH}

check = Checks("manual")


def stored():
    """Each file is what front/manual.py makes, and no line is long."""
    for name, text in manual.made().items():
        path = ROOT / name
        check("%s isn't what front/manual.py makes" % name, path.is_file() and path.read_text() == text)
        check("%s has a long line" % name, all(len(it) <= 160 for it in text.splitlines()))


def options_of(command):
    """The options of a command by the table of words, or of a word in its place."""
    if command in TABLE.taken:
        return sorted({"-o", "--help", *map(commands.option, TABLE.taken[command])})
    return sorted({"--help"} | {commands.option(it.name) for files in (False, True) for it in TABLE.of(command, files)})


def agrees():
    """The help tells each command the options that the table has, and which of them have values."""
    known = manual.Help((ROOT / "front" / "help.txt").read_text())
    check("the commands", list(known.commands) == COMMANDS and list(known.kept) == [*TABLE.commands], known.commands)
    for it in known.kept:
        seen = sorted(option.long for option in known.of(it))
        check("the options of %s" % it, seen == options_of(it), seen)
    every = [*TABLE.flags, *TABLE.files]
    check("the options with values", set(known.valued("", other=True)) == {commands.option(it.name) for it in every if it.value})
    check("the options with files", set(known.valued("FILE")) == {commands.option(it.name) for it in every if it.value == "FILE"})


def slip(text):
    """The first line of a man page that is neither text nor a macro of man as it has to be, or nothing."""
    lines = text.splitlines()
    wrong = [it for it in lines if not (MACRO if it.startswith(".") else TEXT).fullmatch(it)]
    tags = [lines[at:at + 3] for at, it in enumerate(lines) if it == ".TP"]
    wrong += [it[0] for it in tags if len(it) < 3 or it[1].startswith(".") or it[2].startswith(".")]
    blocks = [it for it in lines if it in (".nf", ".fi")]
    wrong += [] if blocks == [".nf", ".fi"] * (len(blocks) // 2) else [".nf"]
    wrong += [] if lines[1].startswith(".TH ") and lines[2] == ".SH NAME" else lines[1:3]
    return wrong[0] if wrong else None


def page():
    """The man page has no error, names each option, and a slip in it is seen."""
    text = PAGE.read_text()
    check("the man page", slip(text) is None, slip(text))
    for old, new in ((".TP\n", ".TQ\n"), (".fi\n", ""), ("\\fR", "\\f"), ("\\-\\-top", "--top"), (".SH NAME", ".SH"), ("Packs", "'Packs")):
        check("a slip: %r" % new, slip(text.replace(old, new, 1)) is not None)
    for it in WORDS:
        check("the man page on the word %s" % it, "\n.TP\n\\fB%s\\fR\n" % it in text)
    for it in {it for command in TABLE.commands for it in options_of(command)}:
        told = 2 if it == "--items" else 1  # (of `fields` it is also a flag without a file)
        check("the man page on %s" % it, text.count("\\fB%s\\fR" % it.replace("-", "\\-")) == told)
    for name, *words in (["groff", "-man", "-Tascii", "-ww", "-z"], ["man", "--warnings", "-l"]):
        if is_of_linux(name):
            ran = run([name, *words, PAGE])
            check(name, (ran.returncode, ran.stderr) == (0, ""), ran.stderr)


def run(words, **how):
    """Runs words, with messages in English."""
    environment = {**os.environ, "LC_ALL": "C", **how.pop("more", {})}
    return subprocess.run(words, env=environment, capture_output=True, text=True, timeout=20, check=False, **how)


def is_of_linux(name):
    """Whether groff is there, or the man that stands on it; other systems have a man that knows no --warnings."""
    return shutil.which(name) is not None and re.match(r"(GNU groff|man) (version )?\d", run([name, "--version"]).stdout) is not None


def offered(folder, every):
    """What bash offers for the last word of each list, in a folder with some files; and what it says."""
    ran = run(["bash", "-c", OFFERS, "bash", BASH, *[it for words in every for it in (str(len(words)), *words)]], cwd=folder)
    return [sorted(filter(None, it.split("\n"))) for it in ran.stdout.split("===\n")[:-1]], ran.stderr


def in_bash(folder):
    """Bash offers commands, the options of each command, and files where one is due."""
    due = [([""], WORDS), (["l"], ["line", "lint", "loss", "lsp"]), (["lsp", ""], []), (["lsp", "-"], []), (["p"], ["pack", "prove"]), (["-"], FIRST), (["--as-built", "un"], ["unpack"]), (["--as-built", "show", "pro"], ["probe.fn"]), (["help", ""], WORDS), (["help", "un"], ["unpack"])]
    due += [(["help", "pack", ""], []), (["foo", ""], []), (["foo", "-"], []), (["--version", ""], []), (["--d"], ["--diagnose"]), (["--diagnose", ""], []), (["--diagnose", "<", ""], HERE)]
    for it in (*TABLE.commands, "report"):
        due += [([it, "-"], options_of(it)), ([it, "probe.fn", ""], options_of(it)), ([it, ""], HERE), ([it, "pro"], ["probe.fn"])]
        due += [([it, "--top", ""], []), ([it, "--top", "plain", ""], HERE), ([it, "--top", "=", "plain", ""], HERE), ([it, "--top", "="], [])]
    for it in ("items", "packets", "from-context", "certificate", "events", "octets", "pcap"):
        due += [(["pack", "probe.fn", "--" + it, *rest], HERE) for rest in ([""], ["="])]
        due += [(["pack", "probe.fn", "--" + it, *rest], ["a file"]) for rest in (["a"], ["=", "a"])]
    due += [(["pack", "--item", "24", ":", "0140", *rest], HERE) for rest in ([""], ["--v2", ""])]
    due += [(["pack", "probe.fn", "--item", *rest], []) for rest in ([""], ["="], ["24", ":"], ["24", ":", "01"])]
    due += [(["pack", "--item", "=", "24", ":", "0140", "f"], ["folder"]), (["pack", "-", "--it"], ["--item", "--items"]), (["show", "nothing"], [])]
    due += [(["loss", "--lost", *rest], offers) for rest, offers in (([""], []), (["="], []), (["3", ""], HERE), (["=", "3", ""], HERE), (["3", "--top", "plain", "f"], ["folder"]))]
    due += [(["report", "probe.fn", "-o", *rest], offers) for rest, offers in (([""], HERE), (["a"], ["a file"]), (["page", ""], options_of("report")))]
    due += [(["show", "--top", "plain", *rest], HERE) for rest in (["<"], ["<", ""])] + [(["show", "probe.fn", it, "a"], ["a file"]) for it in (">", ">>")]
    found, said = offered(folder, [words for words, _ in due])
    check("bash", (len(found), said) == (len(due), ""), said)
    for (words, offers), seen in zip(due, found):
        check("bash offers for %s" % words, seen == sorted(offers), seen)


def in_zsh():
    """Zsh reads its file, where zsh is there; each option of each command stands in it anyway."""
    if shutil.which("zsh"):
        ran = run(["zsh", "-n", ZSH])
        check("zsh", (ran.returncode, ran.stderr) == (0, ""), ran.stderr)
    head, *cases = re.split(r"^        (\w+)\)\n", ZSH.read_text(), flags=re.MULTILINE)
    check("zsh offers at first", re.findall(r"^    '(?:\(- \*\))?'?\{?(?:-h,)?(--[\w-]+)", head, re.MULTILINE) == FIRST, head)
    check("zsh has the commands", cases[::2] == [*TABLE.commands, "report"], cases[::2])
    seen = re.findall(r"^    '([a-z]+):", head, re.MULTILINE)
    check("zsh tells all words", seen == WORDS, seen)
    for command, text in zip(cases[::2], cases[1::2]):
        seen = sorted(re.findall(r"^            '.*?(--?[\w-]+)[=}+\[]", text, re.MULTILINE))
        check("zsh offers for %s" % command, seen == options_of(command), seen)


def in_place(folder):
    """The lines of docs/USAGE.md put the files in place."""
    section = (ROOT / "docs" / "USAGE.md").read_text().partition("\n## The man page and completion\n")[2]
    lines = section.partition("```\n")[2].partition("```\n")[0]
    ran = run(["bash", "-ec", lines], cwd=ROOT, more={"HOME": str(folder)})
    check("docs/USAGE.md puts in place", lines.count("\n") == 3 and (ran.returncode, ran.stderr) == (0, ""), (lines, ran.stderr))
    for name, source in PLACED.items():
        path = folder / ".local" / "share" / name
        check("in place: %s" % name, path.is_file() and path.read_text() == source.read_text())


def main():
    stored()
    agrees()
    page()
    in_zsh()
    with tempfile.TemporaryDirectory() as name:
        folder = pathlib.Path(name) / "a folder"
        (folder / "folder").mkdir(parents=True)
        for it in ("a file", "probe.fn"):
            (folder / it).touch()
        in_bash(folder)
        in_place(pathlib.Path(name))
    return check.status()


if __name__ == "__main__":
    sys.exit(main())
