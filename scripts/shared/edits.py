"""Edits that plant a mistake: files with a line `file: PATH`, of a crate's folder, and then pairs
of lines `old: TEXT` and `new: TEXT`. Each old text has to stand in its file just once, after the
pairs before it."""

import glob
import os

from shared.tree import path, read

KINDS = {
    "mutants": "mutants/*/*.edit",
    "types": "mutants/*/refused-by-types/*.edit",
    "tests": "mutants/*/refused-by-tests/*.edit",
    "gate": "crates/*/must-fail/*.edit",
}


def edits_of(kind):
    return sorted(glob.glob(path(KINDS[kind])))


def crate_of(edit):
    parts = os.path.relpath(edit, path()).split(os.sep)
    return parts[1]


class Unfit(Exception):
    """An edit that can't be applied, and why."""


def edited(edit, crate_folder):
    """The files that an edit changes, by their path in the crate, each with its text then."""
    file, old, texts, pairs = None, None, {}, 0
    for line in read(edit).split("\n"):
        if line.startswith("file: "):
            file = line.removeprefix("file: ").strip()
        elif line.startswith("old: "):
            old = line.removeprefix("old: ")
        elif line.startswith("new:"):
            if file is None or old is None:
                raise Unfit("a line 'new:' stands before any 'file:' or 'old:'")
            whole = os.path.join(crate_folder, file)
            if not os.path.isfile(whole):
                raise Unfit(f"there is no file {file}")
            text = texts.get(file, read(whole))
            if text.count(old) != 1:
                raise Unfit(f"its old text stands in {file} {text.count(old)} times, and not once: {old.strip()[:80]}")
            texts[file] = text.replace(old, line.removeprefix("new:").removeprefix(" "))
            old, pairs = None, pairs + 1
    if not pairs:
        raise Unfit("it has no pair of 'old:' and 'new:'")
    return texts


def why_unfit(edit):
    """Why an edit can't be applied to the work tree, or None."""
    try:
        edited(edit, path("crates", crate_of(edit)))
    except Unfit as unfit:
        return str(unfit)
    return None
