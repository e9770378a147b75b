"""Scratch workspaces: folders that are gone once the script has ended, however it ends, with copies
of crates in them."""

import contextlib
import os
import shutil
import subprocess
import tempfile
import time

from shared import children
from shared.tree import below, crate_lines, path, shown

PARTS = ("src", "specs", "proofs")


def remove(room):
    """Takes a folder away, where what was killed may still be making files in it."""
    for _ in range(50):
        shutil.rmtree(room, ignore_errors=True)
        if not os.path.exists(room):
            return
        time.sleep(0.1)


@contextlib.contextmanager
def room():
    """An empty folder, for what is run by others."""
    made = tempfile.mkdtemp(prefix="segrx-")
    try:
        yield made
    finally:
        remove(made)


@contextlib.contextmanager
def folder():
    """An empty folder. Before it is taken away all that was run is killed."""
    with children.guarded(), room() as made:
        try:
            yield made
        finally:
            children.end_all()


def with_those_below(crates):
    """These crates and all that they stand on, lowest first."""
    return list(dict.fromkeys(name for crate in crates for name in [*below(crate), crate]))


def copy_crates(room, crates, with_kept=False):
    """Makes a repository of these crates and those that they stand on. What earlier checks kept is
    copied only on demand."""
    lines = crate_lines()
    shutil.copy(path("HANDLES"), room)
    with open(os.path.join(room, "crates.txt"), "w") as to:
        for crate in with_those_below(crates):
            to.write(lines[crate] + "\n")
            for part in PARTS:
                if os.path.isdir(path("crates", crate, part)):
                    shutil.copytree(path("crates", crate, part), os.path.join(room, "crates", crate, part))
            if with_kept:
                copy_kept(room, crate)


def copy_kept(room, crate):
    """Copies what earlier checks of a crate kept, if they did."""
    kept = path("crates", crate, "out")
    if os.path.isdir(kept):
        shutil.copytree(kept, os.path.join(room, shown(kept)), symlinks=True)


def add_crate(room, name, uses, sources):
    """Adds a crate to the repository, and returns its folder. Of the files of the folder `sources`,
    NAME.rt.txt becomes the source NAME.rt, and FOLDER.NAME.antt.txt the file
    proofs/FOLDER/NAME.antt."""
    crate = os.path.join(room, "crates", name)
    with open(os.path.join(room, "crates.txt"), "a") as lines:
        lines.write(f"{name}: {uses}\n")
    for file in os.listdir(sources):
        to = None
        if file.endswith(".rt.txt"):
            to = os.path.join(crate, "src", file.removesuffix(".txt"))
        elif file.endswith(".antt.txt"):
            to = os.path.join(crate, "proofs", *file.removesuffix(".antt.txt").split(".")) + ".antt"
        if to is not None:
            os.makedirs(os.path.dirname(to), exist_ok=True)
            shutil.copy(os.path.join(sources, file), to)
    return crate


def copy_tree(room, crates):
    """Makes a copy of the work tree, without its planted mistakes, and with what earlier checks of
    these crates, and of those that they stand on, kept."""
    words = ["git", "ls-files", "-co", "--exclude-standard"]
    listed = subprocess.run(words, cwd=path(), capture_output=True, text=True, check=True)
    for name in listed.stdout.splitlines():
        if os.path.isfile(path(name)) and "/must-fail/" not in name and not name.startswith("mutants/"):
            to = os.path.join(room, name)
            os.makedirs(os.path.dirname(to), exist_ok=True)
            shutil.copy2(path(name), to)
    for crate in with_those_below(crates):
        copy_kept(room, crate)
