"""Where the scripts find the built program and the built tests of a crate."""

import os
import subprocess
import sys
import time

from shared.scratch import with_those_below
from shared.tree import path, shown, sources

BUILT = path("crates", "segrx", "out", "segrx")


def is_older(built, crates):
    """Whether a source of these crates, or of one that they stand on, is newer."""
    return os.path.getmtime(built) < max(map(os.path.getmtime, sources(with_those_below(crates))))


def build():
    """Proves and builds the program, and leaves it in the crate's folder out/."""
    subprocess.run([path("scripts", "build")], stdout=subprocess.DEVNULL, check=True)


def program():
    """The program that SEGRX names, or the one that was built last, or a build of it where there is
    none. Where a source is newer it is built anew, unless SEGRX_AS_IT_IS is set. It says on
    standard error which one it is."""
    named = os.environ.get("SEGRX")
    if named:
        return os.path.abspath(named)
    if not os.path.exists(BUILT) or (is_older(BUILT, ["segrx"]) and not os.environ.get("SEGRX_AS_IT_IS")):
        build()
    age = "older than the sources" if is_older(BUILT, ["segrx"]) else "newer than all sources"
    at = time.strftime("%Y-%m-%d %H:%M:%S", time.localtime(os.path.getmtime(BUILT)))
    print(f"the program {shown(BUILT)}, built {at}, {age}", file=sys.stderr)
    return BUILT


def tests(crate):
    """The tests of a crate that were built last, or a build of them where there is none or a source
    is newer."""
    built = path("crates", crate, "out", f"{crate}_tests")
    if not os.path.exists(built) or is_older(built, [crate]):
        ran = subprocess.run(["rt", "test"], cwd=path("crates", crate), capture_output=True, text=True)
        if ran.returncode != 0:
            sys.exit(f"the tests of {crate} aren't proved or don't pass:\n{ran.stdout[-3000:]}{ran.stderr[-3000:]}")
    return built


def names_of_tests(built):
    listed = subprocess.run([built, "--list"], capture_output=True, text=True, check=True).stdout
    return [line.removesuffix(": test") for line in listed.splitlines() if line.endswith(": test")]
