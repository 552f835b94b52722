"""Reads the commands of the program, and their options, from its help. The examples are tests:

    python3 -m doctest tools/commands.py
"""

import os
import re
import subprocess
from dataclasses import dataclass


@dataclass
class Option:
    """An option: its names, the name of its value or "", whether it takes several values, what it does, and whether it must
    be given."""

    names: list
    value: str
    is_list: bool
    about: str
    is_needed: bool = False


@dataclass
class Argument:
    """A word that is no option: its name, whether it may be left out, and what it is."""

    name: str
    is_optional: bool
    about: str


@dataclass
class Command:
    """A command. `summary` is its line in the list of the commands, and `notes` what its help says after the options."""

    name: str
    summary: str
    about: str
    arguments: list
    options: list
    notes: str

    def own_options(self):
        """Returns the options except `--help`, which each command has."""
        return [it for it in self.options if "--help" not in it.names]


def parts_of(text):
    """Returns the paragraphs of a help: the first, which says what it is about; the usage; the lines of each list, by its
    heading; and the others, as one text.

    >>> parts_of("Runs.\\n\\nUsage: acta run\\n\\nOptions:\\n  -h  Help\\n\\nA mark:\\n  o  it starts\\n")
    ('Runs.', 'acta run', {'Options': ['  -h  Help']}, 'A mark:\\n  o  it starts')
    """
    about, usage, *rest = text.rstrip("\n").split("\n\n")
    lists, notes = {}, []
    for part in rest:
        head, *lines = part.split("\n")
        if head in ("Commands:", "Arguments:", "Options:"):
            lists[head[:-1]] = lines
        else:
            notes.append(part)
    return about, usage.removeprefix("Usage: "), lists, "\n\n".join(notes)


def entry_of(line):
    """Returns the two columns of a line of a list.

    >>> entry_of("      --most <N>  Gives up  [default: 7]")
    ('--most <N>', 'Gives up  [default: 7]')
    >>> entry_of("continued")
    Traceback (most recent call last):
    ValueError: no line of a list: `continued`
    """
    found = re.fullmatch(r" {2,}(\S+(?: \S+)*)(?: {2,}(\S.*))?", line)
    if not found:
        raise ValueError(f"no line of a list: `{line}`")
    return found[1], found[2] or ""


def option_of(line, usage=""):
    """Returns the option of a line. It must be given if the usage names it.

    >>> option_of("  -h, --help  Print help")
    Option(names=['-h', '--help'], value='', is_list=False, about='Print help', is_needed=False)
    >>> option_of("      --code <CODE>...  Says what codes mean")
    Option(names=['--code'], value='CODE', is_list=True, about='Says what codes mean', is_needed=False)
    >>> option_of("      --txns <T,T..>  Draws these").value
    'T,T..'
    >>> option_of("      --most <N>  Gives up", "acta explore --most <N> <MODEL>").is_needed
    True
    """
    head, about = entry_of(line)
    names, _, value = head.partition(" <")
    value, _, dots = value.partition(">")
    names = names.split(", ")
    return Option(names, value, dots == "...", about, any(it in usage.split() for it in names))


def argument_of(line):
    """Returns the argument of a line.

    >>> argument_of("  [MODEL]  A file")
    Argument(name='MODEL', is_optional=True, about='A file')
    """
    head, about = entry_of(line)
    return Argument(head[1:-1], head[0] == "[", about)


def command_of(name, summary, text):
    """Returns the command that a help describes.

    >>> command_of("run", "Runs", "Runs it.\\n\\nUsage: acta run <MODEL>\\n\\nArguments:\\n  <MODEL>  A file\\n").arguments
    [Argument(name='MODEL', is_optional=False, about='A file')]
    """
    about, usage, lists, notes = parts_of(text)
    arguments = [argument_of(it) for it in lists.get("Arguments", [])]
    return Command(name, summary, about, arguments, [option_of(it, usage) for it in lists.get("Options", [])], notes)


def help_of(program, *words):
    """Returns the help that the program writes for these words. The program calls itself `acta` in it."""
    ran = subprocess.run(["acta", *words], executable=os.path.abspath(program), capture_output=True, text=True, timeout=60)
    if ran.returncode != 2 or not ran.stderr.endswith("\n"):
        raise ValueError(f"`acta {' '.join(words)}` is no help: status {ran.returncode}")
    return ran.stderr


def commands_of(program):
    """Returns the program's own options, and its commands in the order of its help."""
    _, _, lists, _ = parts_of(help_of(program, "--help"))
    listed = [entry_of(it) for it in lists["Commands"]]
    commands = [command_of(name, summary, help_of(program, "help", name)) for name, summary in listed if name != "help"]
    return [option_of(it) for it in lists["Options"]], commands
