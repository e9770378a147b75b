"""C programs over the static library `segrx_c`."""

import fcntl
import os
import subprocess
import sys

from shared import built
from shared.tree import path

LIBRARY = path("crates", "segrx_c", "out", "libsegrx_c.a")
ARCHIVE = path("crates", "segrx_c", "out", "libsegrx.a")
WARNINGS = ["-Wall", "-Wextra", "-Wconversion", "-Werror"]
VALGRIND = ["valgrind", "-q", "--leak-check=full", "--show-leak-kinds=all", "--errors-for-leak-kinds=all", "--error-exitcode=9"]


def library():
    """The library that was built last, or a build of it where there is none or a source is newer.
    Of scripts side by side one builds it, and the others wait."""
    with open(path("crates", "segrx_c", "src", "lib.rt")) as source:
        fcntl.flock(source, fcntl.LOCK_EX)
        if not os.path.exists(LIBRARY) or built.is_older(LIBRARY, ["segrx_c"]):
            ran = subprocess.run(["rt", "lib"], cwd=path("crates", "segrx_c"), capture_output=True, text=True)
            if ran.returncode != 0:
                sys.exit(f"segrx_c isn't proved:\n{ran.stdout[-3000:]}{ran.stderr[-3000:]}")
    return LIBRARY


def make_archive():
    """Leaves libsegrx.a beside the library, which `make install` puts in place."""
    library()
    subprocess.run([path("scripts", "library")], check=True)
    return ARCHIVE


def compile_program(source, program, options=()):
    """Compiles a C program, at this path from the top, and links it with the library."""
    command = ["gcc", "-std=gnu11", "-O2", "-g", *WARNINGS, *options, "-I", path("include"), "-o", program, path(*source.split("/"))]
    ran = subprocess.run([*command, make_archive()], capture_output=True, text=True)
    if ran.returncode != 0:
        sys.exit(f"{source} doesn't compile:\n{ran.stderr}")
    return program
