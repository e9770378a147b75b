"""What the program's help says of its commands and their options."""

import re
import subprocess
from collections import namedtuple

SECONDS = 20
# An option of a command: the name of its value, the set of its values, and the value that it has
# where it is left out. What it hasn't of these is None, and the set is empty.
Option = namedtuple("Option", "value values default")
# The arguments that a command needs, by their names, and its options, by theirs.
Command = namedtuple("Command", "needs options")
OPTION = re.compile(r" +(?:-\w, +)?(--[\w-]+)(?: <(.+?)>)? +(.*)")


def said_by(segrx, *words):
    """What the program prints."""
    ran = subprocess.run([segrx, *words], capture_output=True, check=True, timeout=SECONDS)
    return ran.stdout.decode()


def section(text, heading):
    """The lines of a section of a help."""
    found = re.search(rf"^{heading}:\n((?:  .*\n)+)", text, re.MULTILINE)
    return found[1].splitlines() if found else []


def option_by(value, text):
    """The option whose value has this name, and of which a help says this."""
    default = re.search(r"\[default: (\w+)\]", text)
    listed = re.search(r": (\w+(?:, \w+)* or \w+)", text)
    if value and "|" in value:
        values = value.split("|")
    else:
        values = re.split(", | or ", listed[1]) if listed else []
    return Option(value, frozenset(values), default and default[1])


def command_by(text):
    """The command that has this help."""
    found = [OPTION.match(line).groups() for line in section(text, "Options")]
    options = {name: option_by(value, said) for name, value, said in found if name != "--help"}
    return Command(re.findall(r"<(\w+)>", "".join(section(text, "Arguments"))), options)


def commands_in_help(segrx):
    """The commands that the help names, each without its options -h and --help."""
    names = [line.split()[0] for line in section(said_by(segrx, "--help"), "Commands")]
    return {name: command_by(said_by(segrx, name, "--help")) for name in names}
