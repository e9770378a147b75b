"""What the man page says of the program's commands and their options, and its examples."""

import re

from shared.program_help import Command, Option

OPTION = re.compile(r"Fl -([\w-]+)(?: (?:Ar|Cm) (.*))?")


def parts(text, mark):
    """The parts of a page that begin with a line of this macro, by the rest of that line."""
    found = re.split(rf"^\.{mark} (.*)\n", text, flags=re.MULTILINE)
    return dict(zip(found[1::2], found[2::2], strict=True))


def option_named(words):
    """An option's name and the name of its value, by the macros' words."""
    name, value = OPTION.match(words).groups()
    return f"--{name}", value and value.replace(" | ", "|")


def option_by(item, text):
    """An option by its item in a list of the page, and the text below that."""
    name, value = option_named(item)
    words = re.sub(r"[,.:;]", " ", " ".join(re.findall(r"^\.Cm (.*)", text, re.MULTILINE)))
    values = {*words.split(), *(value.split("|") if value and "|" in value else [])}
    default = re.search(r"^\.Pq default: (\w+)", text, re.MULTILINE)
    return name, Option(value, frozenset(values - {"|"}), default and default[1])


def described_options(page):
    """The options of each command that the page describes."""
    found = {}
    for command, text in parts(parts(page, "Sh")["DESCRIPTION"], "Ss").items():
        items = parts(text.split("\n.El")[0], "It")
        found[command] = dict(option_by(item, said) for item, said in items.items())
    return found


def synopsis(page):
    """The commands in the page's synopsis, of whose options it names the values alone."""
    found = {}
    for text in re.split(r"^\.Nm\n", parts(page, "Sh")["SYNOPSIS"], flags=re.MULTILINE)[1:]:
        options = re.findall(r"^\.Op (Fl .*)$", text, re.MULTILINE)
        needs = re.findall(r"^\.Ar (\w+)", text, re.MULTILINE)
        found[re.search(r"Cm (\w+)", text)[1]] = Command(needs, dict(map(option_named, options)))
    return found


def rules(page):
    """The rules of losses that the page tells of."""
    return {item.split()[1] for item in parts(parts(page, "Sh")["LOSSES"], "It")}


def tells_of_help(page):
    """Whether the page says what asks for help."""
    return re.search(r"^\.Fl h\nor\n\.Fl -help ,", page, re.MULTILINE) is not None


def examples(page):
    """The commands of the page's examples, and what each of them prints."""
    shown = re.findall(r"^\.Bd -literal.*\n((?:.*\n)*?)\.Ed", page, re.MULTILINE)
    for block in shown:
        for example in re.split(r"^\$ ", block.replace("\\e", "\\"), flags=re.MULTILINE)[1:]:
            command, *rest = example.splitlines()
            while rest and rest[0].startswith("> "):
                command += "\n" + rest.pop(0)[2:]
            yield command, "".join(line + "\n" for line in rest)
