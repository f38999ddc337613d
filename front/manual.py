"""Makes the help from the table of words and front/prose.txt; of the help the man page and the completion for bash and zsh, and the statuses of the man page
from docs/FORMATS.md: `python3 -m front.manual`, in the checkout. tests/manual.py compares what is stored with what this makes."""
import pathlib
import re
import textwrap

from . import commands

WIDTH = 140  # characters of a line of a script
ROOT = pathlib.Path(__file__).resolve().parent.parent
HEADING = re.compile(r"^=== (\w+)\n", re.MULTILINE)
COMMAND = re.compile(r"^  (\w+)  +(.*)$", re.MULTILINE)
OPTION = re.compile(r"^ +(?:(-\w), )?(--[\w-]+)(?: <?([A-Z]+)>?)?  +(\S.*)$", re.MULTILINE)
USAGE = re.compile(r"^(?:Usage: |  bin/)(rohcfn .*[A-Z].*)$", re.MULTILINE)
OF = re.compile(r"((?:\w+, )*\w+): (.*)")  # the commands that take an option, and what it does
WRITTEN = "-o"  # the option of the file that is written
STATUS = re.compile(r"^\| (\d) \| (.*) \|$", re.MULTILINE)
SOURCE = "Made by front/manual.py from front/commands.txt; change that, and make this anew."

BASH = """# Completion of rohcfn in bash: `source` this file. {source}

# Offers the lines of standard input.
_rohcfn_offer() {{
  local line
  while IFS= read -r line; do COMPREPLY+=("$line"); done
}}

# Offers files. Where a word is quoted none is found here, and bash looks for them by itself. (Outside of a completion compopt has no effect.)
_rohcfn_files() {{
  compopt -o filenames -o default 2>/dev/null
  _rohcfn_offer < <(compgen -f -- "$1")
}}

# Whether a word before the cursor names the profile. Bash parts words at `=` and `:`.
_rohcfn_has_profile() {{
  local at
  for ((at = 2; at < COMP_CWORD; at++)); do
    case ${{COMP_WORDS[at]}} in
      = | : | [\\<\\>]*) at=$((at + 1)) ;;
      {valued})
        at=$((at + 1))
        if [[ ${{COMP_WORDS[at]}} == = ]]; then at=$((at + 1)); fi
        ;;
      - | [!-]*) return 0 ;;
    esac
  done
  return 1
}}

_rohcfn() {{
  if ((COMP_CWORD > 1)) && [[ ${{COMP_WORDS[1]}} == --as-built ]]; then
    COMP_WORDS=("${{COMP_WORDS[0]}}" "${{COMP_WORDS[@]:2}}") COMP_CWORD=$((COMP_CWORD - 1))
  fi
  local word=${{COMP_WORDS[COMP_CWORD]}} before=${{COMP_WORDS[COMP_CWORD - 1]}} options=''
  local commands='{commands}'
  COMPREPLY=()
  if [[ $before == = ]]; then before=${{COMP_WORDS[COMP_CWORD - 2]}}; fi
  case $word in
    =) word='' ;;
    : | [\\<\\>]*) before=$word word='' ;;
  esac
  if ((COMP_CWORD == 1)); then
    if [[ $word == -* ]]; then commands='{first}'; fi
    _rohcfn_offer < <(compgen -W "$commands" -- "$word")
    return
  fi
  case $before in
    [\\<\\>]* | {files})
      _rohcfn_files "$word"
      return
      ;;
    : | {others}) return ;;
  esac
  case ${{COMP_WORDS[1]}} in
{cases}
    help)
      if ((COMP_CWORD == 2)); then options=$commands; fi
      ;;
    *) return ;;
  esac
  if [[ ${{COMP_WORDS[1]}} == help || $word == -* ]] || _rohcfn_has_profile; then
    _rohcfn_offer < <(compgen -W "$options" -- "$word")
  else
    _rohcfn_files "$word"
  fi
}}

complete -F _rohcfn rohcfn
"""

ZSH = """#compdef rohcfn
# Completion of rohcfn in zsh, for a folder of $fpath. {source}

_rohcfn() {{
  local curcontext=$curcontext state state_descr line
  local -A opt_args
  local -a commands=(
{commands}
  )
  _arguments -C \\
    '(- *)'{{-h,--help}}'[{help}]' \\
    '(- *)--version[{version}]' \\
    '(- *)--diagnose[{diagnose}]' \\
    '--as-built[{built}]' \\
    '1: :->command' \\
    '*:: :->words' && return
  case $state in
    command) _describe -t commands command commands ;;
    words)
      case $words[1] in
{cases}
        help) _arguments '1: :{{_describe -t commands command commands}}' ;;
      esac
      ;;
  esac
}}

_rohcfn "$@"
"""


def aligned(rows, indent):
    """Rows of an option and what it does, in two columns."""
    width = max(len(it) for it, _ in rows)
    return "".join("%s%s  %s\n" % (indent, it.ljust(width), does) for it, does in rows)


def patterns(words):
    """Patterns of a case in bash, in lines that aren't long."""
    return " \\\n        ".join(textwrap.wrap(" | ".join(words), WIDTH, break_on_hyphens=False, break_long_words=False))


def of_command(table, command):
    """The help of a command, as the program prints it."""
    flags = table.of(command.name)
    rows = [("--%s <%s>" % (it.name, it.value) if it.value else "--" + it.name, it.does) for it in flags]
    rows = [("    " + it, does) for it, does in rows] + [("-h, --help", table.own["--help"])]
    usage = "Usage: rohcfn %s %s--top <NAME>" % (command.name, "[OPTIONS] " if len(flags) > 1 else "")
    return "=== %s\n%s\n\n%s\n\nOptions:\n%s\n" % (command.name, command.does, usage, aligned(rows, "  "))


def with_files(table):
    """The options of front/, with the commands that take them where these aren't all."""
    for it in table.files:
        of = "" if len(it.commands) == len(table.commands) else ", ".join(it.commands) + ": "
        yield ("--%s %s" % (it.name, it.value)).rstrip(), of + it.does


def helped(table, prose):
    """The help: that of the program, of each command, and what stands below both."""
    rows = [(it.name, it.does) for it in table.commands.values()] + [("help", table.own["help"])]
    usage = "Packs and unpacks headers by a profile in the ROHC formal notation\n\nUsage: rohcfn <COMMAND>\n"
    first = "=== rohcfn\n%s\nCommands:\n%s\nOptions:\n  -h, --help  %s\n\n" % (usage, aligned(rows, "  "), table.own["--help"])
    return first + "".join(of_command(table, it) for it in table.commands.values()) + prose.replace("{options}", aligned(list(with_files(table)), "      "))


class Option:
    """An option as it is written, short (or nothing) and long; the name of its value, or nothing; the commands that take it; and what it does."""

    def __init__(self, short, long, value):
        self.short, self.long, self.value, self.commands, self.does = short, long, value, [], []

    def text(self):
        """What it does, in sentences."""
        return " ".join(it[0].upper() + it[1:] + "." for it in self.does)


class Help:
    """What front/help.txt says."""

    def __init__(self, text):
        _, *parts = HEADING.split(text)
        self.texts = dict(zip(parts[::2], parts[1::2]))
        self.summary = self.texts["rohcfn"].partition("\n")[0]
        self.commands = dict(COMMAND.findall(self.texts["rohcfn"].partition("Commands:\n")[2].partition("Options:\n")[0]))
        self.kept = {it: text for it, text in self.commands.items() if it in self.texts}  # all but `help`
        self.options, self.plain = {}, []
        for command in self.kept:
            self.take(self.texts[command], [command])
        self.plain = sorted(self.options, key=lambda it: it == "--help")  # those that the program itself knows
        self.take(self.texts["files"], self.kept)

    def take(self, text, commands):
        """Takes the options of a text, of these commands where it doesn't say of which."""
        for short, long, value, does in OPTION.findall(text):
            of = OF.fullmatch(does)
            named, does = (of[1].split(", "), of[2]) if of else (commands, does)
            found = self.options.setdefault("%s %s" % (long, value) if long in self.plain and value != self.options[long].value else long, Option(short, long, value))
            found.commands += [it for it in named if it not in found.commands]
            found.does += [does] if does not in found.does else []

    def of(self, command):
        """The options of a command. Where one with files has the name of another, it alone."""
        return list({it.long: it for it in self.options.values() if command in it.commands}.values())

    def valued(self, *names, other=False):
        """The options whose values have one of these names, or another one."""
        return [it.long for it in self.options.values() if it.value and (it.value in names) != other]


def roff(text):
    """A text for roff: no character of it is a command."""
    text = text.replace("bin/rohcfn", "rohcfn").replace("\\", "\\e").replace("-", "\\-").replace("'", "\\(aq").replace("`", "\\(ga")
    return re.sub(r"^\.", r"\\&.", text, flags=re.MULTILINE)


def bold(text):
    return "\\fB%s\\fR" % roff(text)


def paragraphs(text):
    """The paragraphs of a help text without its options; indented lines stay as they are."""
    for block in OPTION.sub("", text).strip("\n").split("\n\n"):
        lines = [it for it in block.splitlines() if it.strip()]
        if lines and lines[0].startswith("  "):
            yield ".PP\n.nf\n%s\n.fi" % roff("\n".join(lines))
        elif lines:
            yield ".PP\n%s" % roff("\n".join(lines))


def told(option, commands):
    """An option of the man page, with the commands that take it, where these aren't all."""
    names = ", ".join(map(bold, filter(None, [option.short, option.long])))
    value = " \\fI%s\\fR" % option.value if option.value else ""
    taken = [bold(it) for it in commands if it in option.commands]
    of = "" if len(taken) == len(commands) else "\nGoes with %s." % ", ".join(taken)
    return ".TP\n%s%s\n%s%s" % (names, value, roff(option.text()), of)


def synopsis(known, table):
    """The calls: by files, of each command by a bundle, those of words that bin/rohcfn answers itself, and the others."""
    calls = USAGE.findall(known.texts["files"])[:1]
    calls = [re.sub(r"  +.*", "", it) for it in calls]
    calls += ["%s <BUNDLE" % USAGE.search(known.texts[it])[1].replace("<NAME>", "NAME") for it in known.kept]
    calls += ["rohcfn " + table.called[it] for it in table.apart()]
    return "\n.br\n".join(map(roff, [*calls, "rohcfn [COMMAND --top NAME] --diagnose <BUNDLE", "rohcfn help [COMMAND]", "rohcfn --version"]))


def page(known, table, formats):
    """The man page."""
    apart = table.apart()
    statuses = formats.partition("| Status | When |\n")[2].partition("\n\n")[0]
    sections = [
        ("NAME", ["rohcfn \\- %s" % roff(known.summary[0].lower() + known.summary[1:])]),
        ("SYNOPSIS", [synopsis(known, table)]),
        ("COMMANDS", [".TP\n%s\n%s." % (bold(it), roff(text)) for it, text in {**known.commands, **apart}.items()]),
        ("OPTIONS", [told(known.options[it], known.kept) for it in known.plain]),
        ("BUNDLES", paragraphs(known.texts["each"])),
        ("FILES", paragraphs(known.texts["files"])),
        ("OPTIONS WITH FILES", [told(it, known.kept) for name, it in known.options.items() if name not in known.plain]),
        ("EXIT STATUS", [".TP\n%s\n%s." % (number, roff(text[0].upper() + text[1:])) for number, text in STATUS.findall(statuses)]),
        ("SEE ALSO", ["The pages of Tuxabelo: README.md, docs/TUTORIAL.md, docs/USAGE.md, docs/NOTATION.md. RFC 4997 has the notation."]),
    ]
    body = "".join(".SH %s\n%s\n" % (name, "\n".join(parts)) for name, parts in sections)
    return '.\\" %s\n.TH ROHCFN 1 "" Tuxabelo "User Commands"\n%s' % (SOURCE, body)


def taken(known, table):
    """Of each word that bin/rohcfn answers itself and that has options these, but the file that is written."""
    every = {it.long: it for it in known.options.values()}
    return {word: [every[commands.option(it)] for it in (*names, "help")] for word, names in table.taken.items() if names}


def bash(known, table):
    """The completion for bash."""
    offers = {it: [option.long for option in known.of(it)] for it in known.kept} | {it: [WRITTEN, *[option.long for option in of]] for it, of in taken(known, table).items()}
    cases = ["    %s)\n      options='%s'\n      ;;" % (it, textwrap.fill(" ".join(of), 140, break_on_hyphens=False)) for it, of in offers.items()]
    words = {"commands": " ".join([*known.commands, *table.apart()]), "cases": "\n".join(cases), "first": " ".join(it for it in table.own if it.startswith("-"))}
    words |= {"files": " | ".join([*known.valued("FILE"), WRITTEN]), "others": " | ".join(known.valued("FILE", other=True))}
    return BASH.format(source=SOURCE, valued=patterns([*known.valued("", other=True), WRITTEN]), **words)


def quoted(text):
    """A text between single quotes of a shell."""
    return text.replace("'", "'\\''")


def spec(option):
    """An option as _arguments of zsh takes it."""
    several = "*" if "several times" in option.text() else ""
    text = quoted("; ".join(option.does)).replace("[", "\\[").replace("]", "\\]")
    if option.value:
        return "'%s%s=[%s]:%s:%s'" % (several, option.long, text, option.value, "_files" if option.value == "FILE" else " ")
    if option.short:
        return "'(- *)'{%s,%s}'[%s]'" % (option.short, option.long, text)
    return "'%s%s[%s]'" % (several, option.long, text)


def zsh(known, table):
    """The completion for zsh."""
    words = ["    '%s:%s'" % (it, quoted(text).replace(":", "\\:")) for it, text in {**known.commands, **table.apart()}.items()]
    cases = []
    for it, options in ({it: known.of(it) for it in known.kept} | taken(known, table)).items():
        specs = [*(["'%s+[the file that is written]:FILE:_files'" % WRITTEN] if it in table.taken else []), *map(spec, options), "'1:PROFILE:_files'"]
        cases.append("        %s)\n          _arguments \\\n            %s\n          ;;" % (it, " \\\n            ".join(specs)))
    own = {it[2:].removeprefix("as-"): quoted(does) for it, does in table.own.items() if it.startswith("-")}
    return ZSH.format(source=SOURCE, commands="\n".join(words), cases="\n".join(cases), **own)


def made():
    """Each file that is made, from the root, with its text."""
    table = commands.table()
    text = helped(table, (ROOT / "front" / "prose.txt").read_text())
    known, formats = Help(text), (ROOT / "docs" / "FORMATS.md").read_text()
    return {"front/help.txt": text, "man/rohcfn.1": page(known, table, formats), "completion/rohcfn.bash": bash(known, table), "completion/_rohcfn": zsh(known, table)}


def main():
    for name, text in made().items():
        (ROOT / name).parent.mkdir(exist_ok=True)
        (ROOT / name).write_text(text)


if __name__ == "__main__":
    main()
