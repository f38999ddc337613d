"""Whether the files of editors/ colour a profile as its tokens are.

The expressions of the TextMate grammar compile, and each keyword, number, bit text, comment and library method of each profile of profiles/ and of the pages,
as front/notation.py has them, gets its colour from its first character to its last, and nothing else gets it. The Vim file has the same words. The problem
matcher finds just the faults that docs/USAGE.md shows, and docs/EDITORS.md names it. The clients of the language server are tried by a profile with a slip:
that of VS Code by node, in a stand-in for VS Code, those of Vim and Neovim by the lines of docs/EDITORS.md, each where it is installed."""
import json
import os
import re
import shutil
import subprocess
import sys
import tempfile

from front import notation
from . import left_out
from .files import Place
from .program import EXAMPLES, ROOT, built

EDITORS = ROOT / "editors"
COLOURS = ("keyword.control", "keyword.other", "constant.numeric", "string", "comment", "support.function")
SHOWN = re.compile(r"^```rohcfn\n(.*?)^```$", re.DOTALL | re.MULTILINE)
FAULT = re.compile(r"^(\S+\.fn|-):(\d+):(\d+): (E\d\d) (.*)$", re.MULTILINE)
ALL = """K = 0x1F + 0b01;
m(p)
{
  UNCOMPRESSED { lsb [8]; crc [8]; }
  CONTROL { } INITIAL { } DEFAULT { } /* a
  // b */ COMPRESSED { lsb =:= lsb(p, -1) [VARIABLE]; }
  COMPRESSED x { crc =:= '' [0]; ENFORCE(true && !false || lsb.UVALUE + crc.CLENGTH == THIS.ULENGTH / THIS.CVALUE); lsb =:= static; } // '0' static
}
"""


class Grammar:
    """A TextMate grammar of single expressions, some of them with captures, and of pairs of expressions that begin and end."""

    def __init__(self, grammar):
        self.repository = grammar["repository"]
        self.rules = list(self.flat(grammar["patterns"]))
        self.open = None

    def flat(self, patterns):
        """The rules in their order, those that are included in their place."""
        for it in patterns:
            if "include" in it:
                yield from self.flat([self.repository[it["include"][1:]]])
            elif "patterns" in it:
                yield from self.flat(it["patterns"])
            else:
                yield {**it, "first": re.compile(it["match"] if "match" in it else it["begin"]), "last": re.compile(it.get("end", ""))}

    def spans(self, text):
        """The start, the end and the colour of each stretch of a text, which is read line by line."""
        offset = 0
        for line in text.split("\n"):
            yield from self.line(line, offset)
            offset += len(line) + 1

    def line(self, content, offset):
        """The stretches that end in a line which begins at an offset. A pair may be open before it and after it."""
        at = 0
        while (step := self.step(content, at))[0]:
            found, rule = step
            if self.open:
                yield self.open[0], offset + found.end(), rule["name"]
                self.open = None
            elif "begin" in rule:
                self.open = offset + found.start(), rule
            else:
                yield from stretches(found, rule, offset)
            at = found.end()

    def step(self, content, at):
        """The next match and its rule: of an open pair the end, else the match that begins first, of several the first rule's."""
        if self.open:
            return self.open[1]["last"].search(content, at), self.open[1]
        matches = [(found, it) for it in self.rules if (found := it["first"].search(content, at))]
        return min(matches, key=lambda it: it[0].start(), default=(None, None))


def stretches(found, rule, offset):
    """What a match colours: all of it, or its captures."""
    if "name" in rule:
        yield offset + found.start(), offset + found.end(), rule["name"]
    for group, it in rule.get("captures", {}).items():
        yield offset + found.start(int(group)), offset + found.end(int(group)), it["name"]


def due(text):
    """The start, the end and the beginning of the colour of each token of a text that has one of these colours."""
    tokens = [it for it in notation.TOKEN.finditer(text) if not (it.lastgroup == "space" and it.group().isspace())]
    for at, it in enumerate(tokens):
        word, kind = it.group(), it.lastgroup
        colour = {"space": "comment", "number": "constant.numeric", "bits": "string"}.get(kind)
        if word in notation.SECTIONS:
            colour = "keyword.control"
        elif word in notation.RESERVED:
            colour = "keyword.other"
        elif word in notation.LIBRARY and tokens[at - 1].group() == "=:=":
            colour = "support.function"
        if colour:
            yield it.start(), it.end(), colour


def seen(grammar, text):
    """The same, as the grammar colours it."""
    for begin, end, name in grammar.spans(text):
        colour = next((it for it in COLOURS if name.startswith(it)), None)
        if colour:
            yield begin, end, colour


def profiles():
    """Each profile's name and text."""
    for path in sorted(EXAMPLES.glob("profiles/**/*.profile")):
        yield path.name, path.read_text()
    for page in ("NOTATION.md", "FROM_RFC4997.md"):
        for profile in SHOWN.findall((ROOT / "docs" / page).read_text()):
            yield "%s: %s" % (page, left_out.METHOD.findall(profile)[-1]), profile
    yield "all words", ALL


def coloured(grammar):
    """What is coloured otherwise, and how many profiles and tokens were compared."""
    wrong, texts, tokens = [], 0, 0
    for name, text in profiles():
        one, two = list(due(text)), list(seen(grammar, text))
        wrong += ["%s: %r" % (name, (text[it[0]:it[1]], *it)) for it in sorted(set(one) ^ set(two))[:3]]
        texts, tokens = texts + 1, tokens + len(one)
    return wrong, texts, tokens


def vim():
    """The words that the Vim file lacks, or has besides."""
    text = (EDITORS / "rohcfn.vim").read_text()
    words = {it for line in re.findall(r"^syntax keyword \w+ (.*)$", text, re.MULTILINE) for it in line.split()}
    library = re.search(r'rohcfnLibrary ".*<=\\%\((.*?)\\\)\\>', text).group(1).split("\\|")
    linked, groups = set(re.findall(r"default link (\w+)", text)), set(re.findall(r"^syntax (?:keyword|match|region) (\w+)", text, re.MULTILINE))
    return ["vim: %s" % it for it in sorted((words ^ set(notation.RESERVED)) | (set(library) ^ set(notation.LIBRARY)) | (groups - {"rohcfnName"} ^ linked))]


def matched():
    """The faults of docs/USAGE.md that the problem matcher doesn't find, and the lines that it finds besides; and whether docs/EDITORS.md names it."""
    matcher = json.loads((EDITORS / "package.json").read_text())["contributes"]["problemMatchers"][0]
    pattern, page = matcher["pattern"], (ROOT / "docs" / "USAGE.md").read_text()
    found = [tuple(it.group(pattern[name]) for name in ("file", "line", "column", "code", "message"))
             for line in page.splitlines() if (it := re.match(pattern["regexp"], line))]
    tasks = json.loads(re.search(r"^```json\n(.*?)^```$", (ROOT / "docs" / "EDITORS.md").read_text(), re.DOTALL | re.MULTILINE).group(1))["tasks"]
    named = [it["problemMatcher"] for it in tasks] == ["$" + matcher["name"]]
    return ["matcher: %r" % (it,) for it in set(found) ^ set(FAULT.findall(page))] + ([] if found and named else ["matcher: nothing"])


def slipped():
    """A profile with a slip, and the line and the column of it, from 0."""
    text = (EXAMPLES / "probe.fn").read_text().replace("irregular", "iregular", 1)
    before = text[:text.index("iregular")]
    return text, before.count("\n"), len(before) - before.rfind("\n") - 1


def manifest():
    """What is wrong with what package.json names, or lacks."""
    package = json.loads((EDITORS / "package.json").read_text())
    named = [package["main"], *[it["path"] for it in package["contributes"]["grammars"]], *[it["configuration"] for it in package["contributes"]["languages"]]]
    if missing := ["manifest: no %s" % it for it in named if not (EDITORS / it).is_file()]:
        return missing
    wrong = []
    languages = [it["id"] for it in package["contributes"]["languages"]]
    wrong += [] if package["activationEvents"] == ["onLanguage:" + it for it in languages] else ["manifest: begins with %s" % package["activationEvents"]]
    text = (EDITORS / package["main"]).read_text()
    needed = set(re.findall(r'require\("(\w+)"\)', text))
    wrong += ["manifest: needs %s" % it for it in needed - {"vscode", "child_process"}]
    wrong += ["manifest: has %s" % it for it in ("dependencies", "scripts", "devDependencies") if it in package]
    settings = package["contributes"]["configuration"]["properties"]
    wrong += [] if list(settings) == ["rohcfn.command"] and 'getConfiguration(LANGUAGE).get("command")' in text else ["manifest: %s" % list(settings)]
    return wrong


def ran(words, seconds=120, **how):
    """What words print, and what they say, where they end with status 0."""
    found = subprocess.run(words, capture_output=True, text=True, timeout=seconds, check=False, stdin=subprocess.DEVNULL, **how)
    return found.stdout if found.returncode == 0 else "status %d: %s" % (found.returncode, found.stderr[-400:])


def in_vscode(place):
    """What the extension does with the slip, and once it is mended, where node is there."""
    text, line, column = slipped()
    printed = ran(["node", ROOT / "tests" / "extension.js", place.command, text], env=place.environment)
    if not printed.startswith("{"):
        return ["vscode: %s" % printed]
    seen = json.loads(printed)
    start, end = {"line": line, "character": column}, {"line": line, "character": column + 8}
    fault = {"range": {"start": start, "end": end}, "message": "name iregular is not known\nhelp: do you mean `irregular`?", "severity": 0, "code": "E20"}
    due = {"faults": [fault], "mended": 1, "shown": [], "symbols": ["probe"], "folds": 1, "edits": 0, "references": 3, "subscriptions": 12}
    wrong = ["vscode: %s: %r" % (name, seen[name]) for name, it in due.items() if seen[name] != it]
    wrong += [] if "All bits of the field are sent as they are." in seen["hover"] else ["vscode: hover: %r" % seen["hover"]]
    return wrong + ([] if seen["offers"] == [*notation.LIBRARY, "probe"] else ["vscode: offers: %r" % seen["offers"]])


# What Vim does with the slip: once it is told, it goes on from there to a definition, to what may be written, and to the layout.
IN_VIM = """filetype plugin on
edit slip.fn
for turn in range(1200)
  if !empty(getloclist(0)) | break | endif
  sleep 50m
endfor
let found = {"list": map(getloclist(0), '[v:val.lnum, v:val.col, v:val.type, v:val.text]'), "marked": empty(prop_list(LINE)) ? 0 : prop_list(LINE)[0].length}
call cursor(4, 40)
call RohcfnDefinition()
let found.definition = [line("."), col(".")]
call RohcfnReferences()
let found.references = map(getqflist(), '[v:val.lnum, v:val.col]')
call cursor(4, 48)
let found.offers = map(RohcfnOffers(0, "s"), 'v:val.word')
call RohcfnHover()
let found.hover = len(popup_list())
call setline(LINE, substitute(getline(LINE), "iregular", " irregular", ""))
RohcfnFormat
for turn in range(1200)
  call RohcfnReferences()
  if getloclist(0) != [] && getloclist(0)[0].text !~ "E20" | break | endif
  sleep 50m
endfor
let found.text = getline(1, "$")
let found.mended = map(getloclist(0), 'v:val.text')
call setline(3, "  /* \U0001d11e */" . getline(3))
call cursor(4, 40)
call RohcfnDefinition()
let found.moved = [line("."), col(".")]
call writefile([json_encode(found)], "found")
quitall!
"""


def lines_of_page(heading, kind):
    """The lines of the blocks of a kind below a heading of docs/EDITORS.md."""
    section = (ROOT / "docs" / "EDITORS.md").read_text().partition("\n## %s\n" % heading)[2].partition("\n## ")[0]
    return "".join(re.findall(r"^```%s\n(.*?)^```$" % kind, section, re.DOTALL | re.MULTILINE))


def in_vim(place):
    """What Vim does by the lines of docs/EDITORS.md, where one is there that has what they need."""
    text, line, column = slipped()
    (place.files / "slip.fn").write_text(text)
    (place.files / "session.vim").write_text(IN_VIM.replace("LINE", str(line + 1)))
    environment = {**place.environment, "HOME": str(place.files), "PATH": "%s:%s" % (place.command.parent, place.environment["PATH"])}
    put = ran(["bash", "-ec", lines_of_page("Vim", "sh")], cwd=ROOT, env=environment)
    words = ["vim", "-es", "-N", "-n", "-i", "NONE", "-u", "NORC", "--cmd", "set encoding=utf-8 runtimepath^=~/.vim", "-S", "session.vim"]
    said = ran(words, cwd=place.files, env=environment)
    if put or not (place.files / "found").is_file():
        return ["vim: %s %s" % (put, said)]
    seen = json.loads((place.files / "found").read_text())
    due = {"list": [[line + 1, column + 1, "E", "E20 name iregular is not known; help: do you mean `irregular`?"]], "marked": 8, "definition": [3, 60],
           "references": [[3, 60], [4, 39], [5, 39]], "offers": ["static"], "hover": 1, "text": (EXAMPLES / "probe.fn").read_text().splitlines(),
           "mended": ["lint probe.same: a wrong reference is not noticed"], "moved": [3, 60 + len("  /* \U0001d11e */".encode())]}
    return ["vim: %s: %r" % (name, seen[name]) for name, it in due.items() if seen[name] != it]


# Neovim 0.7 has a client, and no vim.lsp.start.
BEFORE_NEOVIM = """vim.lsp.start = vim.lsp.start or function(it) return vim.lsp.buf_attach_client(0, vim.lsp.start_client(it)) end
"""
IN_NEOVIM = """vim.cmd('edit slip.fn')
vim.wait(60000, function() return #vim.diagnostic.get(0) > 0 end, 50)
local found = { list = vim.tbl_map(function(it) return { it.lnum, it.col, it.code, it.message } end, vim.diagnostic.get(0)) }
local function definition()
  local asked = vim.lsp.util.make_position_params(0, 'utf-16')
  for _, it in pairs(vim.lsp.buf_request_sync(0, 'textDocument/definition', asked, 60000)) do return it.result.range.start end
end
vim.fn.cursor(4, 40)
found.definition = definition()
vim.fn.setline(3, "  /* \U0001d11e */" .. vim.fn.getline(3))
found.moved = definition()
vim.fn.writefile({ vim.json.encode(found) }, 'found.nvim')
vim.cmd('quitall!')
"""


def in_neovim(place):
    """What Neovim shows by the lines of docs/EDITORS.md, where it is there."""
    text, line, column = slipped()
    (place.files / "slip.fn").write_text(text)
    (place.files / "session.lua").write_text(BEFORE_NEOVIM + lines_of_page("Neovim", "lua") + IN_NEOVIM)
    environment = {**place.environment, "HOME": str(place.files), "PATH": "%s:%s" % (place.command.parent, place.environment["PATH"])}
    said = ran(["nvim", "--headless", "-n", "-i", "NONE", "--clean", "-S", "session.lua"], cwd=place.files, env=environment)
    if not (place.files / "found.nvim").is_file():
        return ["nvim: %s" % said]
    seen = json.loads((place.files / "found.nvim").read_text())
    due = {"list": [[line, column, "E20", "name iregular is not known\nhelp: do you mean `irregular`?"]],
           "definition": {"line": 2, "character": 59}, "moved": {"line": 2, "character": 59 + len("  /*  */") + 2}}
    return ["nvim: %s: %r" % (name, seen[name]) for name, it in due.items() if seen[name] != it]


def has_channels():
    """Whether the Vim that is here has what the client needs."""
    asked = "+exe printf('!echo %d', has('channel') && has('patch-8.2.4684') && has('textprop') && has('popupwin'))"
    return shutil.which("vim") is not None and "1" in ran(["vim", "-es", "-N", "-u", "NONE", asked, "+q"], env={**os.environ, "TERM": "dumb"})


def clients():
    """What is wrong with the clients, and which of them were tried."""
    trials = [("VS Code", shutil.which("node"), in_vscode), ("Vim", has_channels(), in_vim), ("Neovim", shutil.which("nvim"), in_neovim)]
    wrong = []
    for name, is_there, trial in trials:
        if not is_there:
            print("editors: skipped: %s" % name)
            continue
        with tempfile.TemporaryDirectory() as folder:
            wrong += trial(Place(folder, "a copy", built()))
    return wrong, [name for name, is_there, _ in trials if is_there]


def main():
    grammar = Grammar(json.loads((EDITORS / "rohcfn.tmLanguage.json").read_text()))
    json.loads((EDITORS / "language-configuration.json").read_text())
    wrong, texts, tokens = coloured(grammar)
    wrong += vim() + matched() + manifest()
    faults, tried = clients()
    wrong += faults
    for it in wrong:
        print(it)
    counts = len(grammar.rules), tokens, texts, len(wrong)
    print("editors: %d expressions, %d tokens of %d profiles, %d wrong; clients: %s" % (*counts, ", ".join(tried) or "none"))
    sys.exit(1 if wrong or not tokens else 0)


if __name__ == "__main__":
    main()
