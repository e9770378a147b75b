"""What .antt files import: `use Rattle.CRATE.PART.MODULE.{names}` and
`use Rattle.CRATE.PART.MODULE as name`."""

import functools
import os
import re
from collections import namedtuple

from shared.tree import crate_lines, path, read

USE = re.compile(r"^\s*(?:pub )?(?:ghost )?use ([\w.·-]+?)(?:\.?\{([^}]*)\})?(?: as (\w+))?;?$", re.M)


@functools.cache
def imports(file):
    """What a file imports: for each line the path, the names that are taken out of it, each with
    the name it is given, and the name that the path itself is given."""
    found = []
    for module, names, given in USE.findall(re.sub(r"\n[ \t]+", " ", read(file))):
        words = [name.strip() for name in names.split(",") if name.strip()]
        pairs = [tuple(re.split(r" as ", name)) if " as " in name else (name, name) for name in words]
        found.append((module.rstrip("."), pairs, given or module.rsplit(".", 1)[-1]))
    return found


def file_of(module):
    """The file of a module of this repository's crates, or None."""
    parts = module.split(".")
    if len(parts) < 4 or parts[0] != "Rattle" or parts[1] not in crate_lines() or parts[2] not in ("specs", "proofs"):
        return None
    for end in range(len(parts), 3, -1):
        file = path("crates", parts[1], parts[2], *parts[3:end]) + ".antt"
        if os.path.isfile(file):
            return file
    return None


@functools.cache
def imported_proofs(file):
    """The proof files that a file imports, and those that these import."""
    found, waiting = set(), [file]
    while waiting:
        for module, _, _ in imports(waiting.pop()):
            to = file_of(module)
            if to is not None and "/proofs/" in to and to not in found:
                found.add(to)
                waiting.append(to)
    return found


Place = namedtuple("Place", "file first last")


def name_begun(words, now):
    """The name of the definition that a line with these words begins, or None where it goes on with
    the one before it."""
    said = [word for word in words if word not in ("pub", "abbrev", "unfoldable", "opaque", "private")]
    if len(said) > 1 and said[0] in ("record", "data"):
        return said[1]
    if len(said) < len(words) or (len(said) > 1 and said[1] == ":" and said[0] != now):
        return said[0]
    return None


@functools.cache
def definitions(file):
    """The definitions of a file of specs/, by their names: from the remark above each to its last
    line, counted from 1."""
    lines = read(file).splitlines()
    found, now, start, begun, indent = {}, None, None, None, 0
    for at, line in enumerate([*lines, "end of the file"]):
        deep = len(line) - len(line.lstrip())
        if line.strip() and deep < indent:
            indent = deep
        is_remark = line.strip().startswith("--")
        if line.strip() and deep <= indent and is_remark and begun is None:
            begun = at
        elif not line.strip():
            begun = None
        elif deep <= indent and not is_remark:
            words = line.split()
            name = None if words[0] in ("use", "module", "mod") else name_begun(words, now)
            is_list = words[0] in ("use", "module", "mod", "end") or words[:2] in (["pub", "use"], ["pub", "mod"])
            ends = name is not None or is_list
            if ends and now is not None:
                end = (begun if begun is not None else at) - 1
                while not lines[end].strip():
                    end -= 1
                found[now] = Place(file, start + 1, end + 1)
                now = None
            if name is not None and name not in ("use", "mod"):
                now, start = name, begun if begun is not None else at
            if words[0] == "module":
                indent = deep + 2
            begun = None
    return found


def text_of(place, with_remarks=True):
    lines = read(place.file).splitlines()[place.first - 1 : place.last]
    return "\n".join(line for line in lines if with_remarks or not line.strip().startswith(("--", "//")))


@functools.cache
def defined(file):
    """The definition in which each name of a file is defined: itself, or the one whose constructor
    it is."""
    names = {name: name for name in definitions(file)}
    for name, place in definitions(file).items():
        text = text_of(place, with_remarks=False)
        if re.search(rf"\bdata {re.escape(name)}\b", text):
            names |= {constructor: name for constructor in re.findall(r"^ +(?:pub )?(\S+) :", text, re.M)}
    return names


def bound_in(text):
    """The names that a definition binds: its parameters, those of its functions and patterns, and
    its fields."""
    binders = re.findall(r"[({]([\w'-]+(?: [\w'-]+)*) :", text) + re.findall(r"λ ([^.]+)\.", text)
    patterns = re.findall(r"^ *[^\s=]+ ([^=\n{]*) =", text, re.M)
    return set(re.findall(r"[^\s(){}:,;]+", " ".join(binders + patterns))) | set(re.findall(r"^ +pub (\S+) :", text, re.M))


def words_of(text):
    """The names that occur in a text: of a dotted one what stands before its first dot, and between
    that and the next."""
    # Without the fields of a record's value.
    plain = re.sub(r"([{;]\s*)\S+ = ", r"\1", re.sub(r"--.*", "", text))
    for word in re.findall(r"[^\s(){}\[\];,]+", plain):
        parts = word.strip(".").split(".")
        yield parts[0], parts[1] if len(parts) > 1 else None
