"""Contracts in .rt files: where a function stands, its clauses, and what its names stand for; and
where a Rust type stands."""

import functools
import os
import re
from collections import namedtuple

from shared.antt import Place
from shared.tree import below, crate_lines, path, read, shown, sources

Clause = namedtuple("Clause", "kind name text first last")
Contract = namedtuple("Contract", "name place head clauses is_public")
HEAD_OF_CLAUSE = re.compile(r"(?:\s*//[^\n]*)*\s*(requires|ensures)(?: ?\*)?(?: (\w+))? \{")


def line_at(text, at):
    return text.count("\n", 0, at) + 1


def closing(text, at, brackets="{}"):
    """Where the bracket is closed that stands at this place."""
    depth = 0
    for k in range(at, len(text)):
        depth += (text[k] == brackets[0]) - (text[k] == brackets[1])
        if depth == 0:
            return k
    return len(text) - 1


def clauses_after(text, at):
    """The clauses that stand one after another, the first of them at this place."""
    while found := HEAD_OF_CLAUSE.match(text, at):
        end = closing(text, found.end() - 1)
        first = line_at(text, found.start(1))
        yield Clause(found[1], found[2], text[found.end() : end], first, line_at(text, end))
        at = end + 1


@functools.cache
def contracts(file):
    """The functions of a file with a contract: each with its type, if a method, and its clauses."""
    text, found = read(file), []
    owners = [(it.start(), closing(text, text.index("{", it.start())), it[1]) for it in OWNER.finditer(text)]
    for function in re.finditer(r'^ *(pub )?(?:pub\([a-z]+\) )?(?:unsafe )?(?:extern "C" )?fn (\w+)', text, re.M):
        first_clause = re.compile(r"\n\s*(?:requires|ensures)(?: ?\*)?(?: \w+)? \{").search(text, function.start())
        head = text[function.start() : first_clause.start()] if first_clause else ""
        head = re.sub(r"\n\s*ghost \w+: \{[^\n]*\}(?=\n|$)", "", head)
        if not first_clause or re.search(r"\{|;\s*$|\bfn \w+[\s\S]*\bfn \w+", head):
            continue
        clauses = list(clauses_after(text, first_clause.start()))
        owner = next((name for start, end, name in owners if start < function.start() < end), None)
        name = f"{owner}::{function[2]}" if owner else function[2]
        place = Place(file, line_at(text, function.start(2)), clauses[-1].last)
        found.append(Contract(name, place, head, clauses, function[1] is not None))
    return found


OWNER = re.compile(r"^(?:pub )?(?:impl(?:<[^{]*?>)? (?:[\w<>, ]+ for )?|trait )(\w+)", re.M)


def contracts_named(crate, name):
    """The contracts of a crate with this name: a function's, a method's as `Type::name`, or those
    of all public methods of a type."""
    all_of_crate = [it for file in sorted(sources([crate])) if "/tests" not in shown(file) for it in contracts(file)]
    exact = [it for it in all_of_crate if it.name == name]
    return exact or [it for it in all_of_crate if it.name.split("::")[0] == name and "::" in it.name and it.is_public]


@functools.cache
def ghost_uses(file):
    """What the clauses of a file import: for each line the path, the names taken out of it, and the
    name that it is given."""
    found = []
    for module, names, given in re.findall(r"ghost use ([\w.]+?)(?:\.?\{([^}]*)\})?(?: as (\w+))?;", read(file)):
        words = [name.strip() for name in names.split(",") if name.strip()]
        pairs = [tuple(name.split(" as ")) if " as " in name else (name, name) for name in words]
        found.append((module.rstrip("."), pairs, given or module.rsplit(".", 1)[-1]))
    return found


def rust_item(file, kind, name):
    """Where a type or trait stands in a file, with what is said above it, or None."""
    text = read(file)
    found = re.search(rf"^ *(?:pub(?:\([a-z]+\))? )?(?:{kind}) {name}\b", text, re.M)
    if not found:
        return None
    stop = re.compile(r"[{;]").search(text, found.end())
    end = closing(text, stop.start()) if stop[0] == "{" else stop.start()
    first = line_at(text, found.start())
    lines = text.splitlines()
    while first > 1 and lines[first - 2].strip().startswith(("///", "#[", "//")):
        first -= 1
    return Place(file, first, line_at(text, end))


def rust_type(module):
    """Where the Rust type of a module `Rattle.CRATE.specs.declared.MODULE.Type` stands, and its
    name."""
    parts = module.split(".")
    own = parts[4:]
    at = next(k for k, part in enumerate(own) if part[:1].isupper())
    folder = path("crates", parts[1], "src", *own[:at])
    for file in (f"{folder}.rt", os.path.join(folder, "mod.rt"), os.path.join(folder, "lib.rt"), os.path.join(folder, "main.rt")):
        place = rust_item(file, "struct|enum|union|trait|type", own[at]) if os.path.isfile(file) else None
        if place is not None:
            return own[at], place
    return own[at], None


@functools.cache
def type_named(file, name):
    """Where the struct or enum of these crates is that a file of code means by a name, or None."""
    own = shown(file).split(os.sep)[1]
    imported = re.findall(r"^(?:pub )?use (\w+)::([\w:{}, \n]+);", read(file), re.M)
    crate = next((first for first, names in imported if re.search(rf"\b{name}\b", names)), own)
    crate = own if crate in ("crate", "self", "super") else crate
    for source in sorted(sources([crate])) if crate in crate_lines() else []:
        place = rust_item(source, "struct|enum", name) if "tests" not in shown(source) else None
        if place is not None:
            return place
    return None


def traits_with(crate, bounds, name):
    """The traits among these bounds that declare a ghost item of this name."""
    for file in sorted(sources([it for it in [*below(crate), crate] if it in crate_lines()])):
        for bound in re.findall(r"\b[A-Z]\w*", bounds):
            place = rust_item(file, "trait", bound)
            if place is not None:
                body = "\n".join(read(file).splitlines()[place.first - 1 : place.last])
                if re.search(rf"ghost {name}\b", body):
                    yield bound, place
