"""The work tree: where its files are, and its crates with what each of them uses."""

import functools
import glob
import os
import re

TOP = os.path.normpath(os.path.join(os.path.dirname(os.path.abspath(__file__)), "..", ".."))


def path(*parts):
    return os.path.join(TOP, *parts)


def shown(file):
    """The path of a file as seen from the top."""
    return os.path.relpath(file, TOP)


def read(file):
    with open(file, errors="replace") as text:
        return text.read()


@functools.cache
def crate_lines():
    """The line of crates.txt of each crate, by its name."""
    lines = [line for line in read(path("crates.txt")).splitlines() if ":" in line and not line.startswith("#")]
    return {re.split(r"[ :]", line)[0]: line for line in lines}


def below(crate):
    """The crates of the repository that a crate stands on, lowest first."""
    lines, found = crate_lines(), []
    for name in lines[crate].split(":")[1].split():
        if name in lines:
            found += [it for it in [*below(name), name] if it not in found]
    return found


def crates():
    """All crates, each after those that it stands on."""
    return sorted(crate_lines(), key=lambda crate: len(below(crate)))


def sources(names, ending=".rt"):
    """The files of these crates with this ending, but for what was built."""
    found = [glob.glob(path("crates", name, "*", "**", f"*{ending}"), recursive=True) for name in names]
    return [file for files in found for file in files if "/out/" not in shown(file)]


def has_tests(crate):
    return any(re.search(r"#\s*\[[^]]*\btest\b", read(file)) for file in sources([crate]))


@functools.cache
def tested_by(crate):
    """The crates that a crate of worked examples, `worked_..`, has the tests of: those that its row
    of docs/ARCHITECTURE.md says it tests. Of any other crate there are none."""
    row = re.search(rf"^\| `{crate}` \|([^|]*)\|", read(path("docs", "ARCHITECTURE.md")), re.M)
    if row is None or not crate.startswith("worked_"):
        return []
    named = re.findall(r"`([a-z_]+)`", row[1])
    return [other for other in below(crate) if other in named and not other.startswith("worked_")]
