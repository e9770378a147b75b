"""What the jobs of the benchmark cost, in figures that other work on the machine doesn't change:
instructions by function, and requests for memory. Each job is done on one 256th part of its input.
"""

import collections
import os
import re
import subprocess
import sys

from shared.children import run
from shared.tree import path, read

# Which forms the C library takes of what it has several of, as copying, and by which sizes of
# caches, so that another processor counts the same.
SAME_EVERYWHERE = ":".join(
    [
        "glibc.cpu.hwcaps=-AVX,-AVX2,-AVX512F,-AVX512VL,-ERMS,-FSRM,-AVX_Fast_Unaligned_Load,Fast_Unaligned_Copy",
        "glibc.cpu.x86_data_cache_size=0x8000",
        "glibc.cpu.x86_shared_cache_size=0x100000",
        "glibc.cpu.x86_non_temporal_threshold=0xc0000",
    ]
)
# The functions of the crate that makes inputs and digests, which are no part of what a job costs.
MAKER = "workloads::"
# The job whose threads wait by trying again, and the functions of its two ends, which read and
# write text: these alone take as many instructions in each run.
WITH_THREADS, ENDS = "run", ("text_lines::", "texts::")
SECONDS = 300


class Job:
    """A job of bench/workloads.txt: its name, its crate, and the words that ask for a part."""

    def __init__(self, line):
        self.name, self.crate, *words = line.split()
        self.words = ["1" if word == "SEED" else word for word in words] + ["1"]

    def program(self):
        return path("crates", self.crate, "out", self.crate)

    def digest(self):
        """What the merge gate wants of it."""
        lines = read(path("crates", self.crate, "stdout")).splitlines()
        return next(line for line in lines if line.split()[0] == self.name)

    def segments(self):
        return int(self.digest().split()[3])

    def do(self, before, **environment):
        """Does it behind these words, and answers what was said on standard error. Its digest has
        to be the wanted one."""
        command = [*before, self.program(), *self.words]
        done = subprocess.run(
            command, cwd=path("bench"), env={**os.environ, **environment}, capture_output=True, text=True, timeout=SECONDS
        )
        if done.returncode != 0 or done.stdout.rstrip("\n") != self.digest():
            sys.exit(f"{self.name}: it prints {done.stdout!r} and not {self.digest()!r}: {done.stderr[-500:]}")
        return done.stderr


def jobs():
    lines = read(path("bench", "workloads.txt")).splitlines()
    return [Job(line) for line in lines if line.strip() and not line.startswith("#")]


def build_missing(todo):
    """Proves and builds those programs of jobs that aren't there. The merge gate leaves them."""
    for job in {job.crate: job for job in todo}.values():
        if not os.path.exists(job.program()):
            built = run(["rt", "run", "--", "trial", "1", path("bench", "workloads.map")], cwd=path("crates", job.crate))
            if built.returncode:
                sys.exit(built.stdout[-3000:])


def short_name(function):
    """A function's name without what tells its types and versions."""
    return re.sub(r"::<#\w+>|@+GLIBC_[\d.]+|'\d+$", "", function)


def instructions_by_function(file):
    """How many instructions each function took itself, from what callgrind wrote."""
    names, counts, function, is_of_call = {}, collections.Counter(), None, False
    with open(file) as lines:
        for line in lines:
            named = re.match(r"(c?)fn=\((\d+)\)(?: (.*))?", line)
            if named:
                if named[3] is not None:
                    names[named[2]] = short_name(named[3])
                function = function if named[1] else names[named[2]]
            elif line.startswith("calls="):
                is_of_call = True
            elif re.match(r"[+\-*\d]", line):
                if not is_of_call:
                    counts[function] += int(line.split()[1])
                is_of_call = False
    return counts


def instructions(job, room):
    """How many instructions each function of a job took itself, but for those of the maker of
    inputs, and where threads wait only those of its two ends.
    """
    file = os.path.join(room, f"{job.name}.callgrind")
    job.do(["valgrind", "--tool=callgrind", f"--callgrind-out-file={file}"], GLIBC_TUNABLES=SAME_EVERYWHERE)
    counted = instructions_by_function(file)
    is_end = job.name == WITH_THREADS
    chosen = (name for name in counted if name.startswith(ENDS if is_end else "") and not name.startswith(MAKER))
    return collections.Counter({name: counted[name] for name in chosen})


def build_counter(room):
    """The library that counts requests for memory."""
    library = os.path.join(room, "count_requests.so")
    built = run(["gcc", "-O2", "-shared", "-fPIC", "-o", library, path("scripts", "programs", "refuse_allocation.c")])
    if built.returncode:
        sys.exit(built.stdout)
    return library


def requests(job, library, room):
    """How many requests for memory and for starts of threads a job makes."""
    file = os.path.join(room, f"{job.name}.requests")
    job.do([], LD_PRELOAD=library, REFUSE_ALLOCATION="0", REFUSE_COUNTED=file)
    with open(file) as counted:
        return int(counted.read())
