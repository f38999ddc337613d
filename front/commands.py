"""The table of words, front/commands.txt."""
import collections
import os

Command = collections.namedtuple("Command", "name does needs")
Option = collections.namedtuple("Option", "name value commands does")

PATH = os.path.join(os.path.dirname(os.path.realpath(__file__)), "commands.txt")


def option(name):
    """An option as it is written."""
    return "--" + name


class Table:
    """What the table says: the commands, the options of the program and of front/, and the words in the place of a command."""

    def __init__(self, text):
        self.commands, self.flags, self.files, self.own, self.called, self.taken = {}, [], [], {}, {}, {}
        for line in text.splitlines():
            kind, _, rest = line.partition(" ")
            if kind != "#":
                self.take(kind, *[it.strip() for it in rest.split("|")])

    def take(self, kind, name, second, does=""):
        """Takes a line. Of a command, and of a word in its place, the second part is what it does, and of options the commands that take them."""
        if kind == "command":
            self.commands[name] = Command(name, second, does.split())
        elif kind == "own":
            word = name.partition(" ")[0]
            self.own[word], self.called[word], self.taken[word] = second, name, does.split()
        else:
            word, _, value = name.partition(" ")
            named = list(self.commands) if second == "all" else second.split()
            (self.flags if kind == "flag" else self.files).append(Option(word, value, named, does))

    def of(self, command, files=False):
        """The options of the program, or of front/, that a command takes."""
        return [it for it in (self.files if files else self.flags) if command in it.commands]


    def apart(self):
        """The words in the place of a command that bin/rohcfn answers itself, but `help` and the options."""
        return {it: does for it, does in self.own.items() if not it.startswith("-") and it != "help"}


def table():
    with open(PATH, encoding="utf-8") as file:
        return Table(file.read())
