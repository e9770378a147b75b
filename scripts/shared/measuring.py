"""The program's speed and memory, and those of the programs of benches."""

import collections
import os
import re
import statistics
import subprocess
import sys
import tempfile
import time

from shared import children, scratch
from shared.long_texts import MIB, write_up_to
from shared.tree import path


def load():
    """The load of the machine in the last minute."""
    return f"{os.getloadavg()[0]:.1f}"


def once(program, words, file, cores=None, told=None):
    """The seconds that the program takes with these words, on these cores or all, and what the
    system says of it. What it says on standard error goes there."""
    with open(file, "rb") as given, open(os.devnull, "wb") as taken:
        began = time.monotonic()
        bound = [] if cores is None else ["taskset", "-c", cores]
        child = subprocess.Popen([*bound, program, *words], stdin=given, stdout=taken, stderr=told)
        _, status, usage = os.wait4(child.pid, 0)
        seconds = time.monotonic() - began
    if status != 0:
        sys.exit(f"segrx ended with {status}")
    return seconds, usage


def measure(program, command, file, runs):
    """The median of the seconds, the greatest memory, and the median of the page faults."""
    made = [once(program, [command], file) for _ in range(runs)]
    memory = max(usage.ru_maxrss * 1024 for _, usage in made)
    return statistics.median(seconds for seconds, _ in made), memory, statistics.median(usage.ru_minflt for _, usage in made)


# Of how large a front of a text instructions are counted, which takes some fifty times a run.
COUNTED = 4 * MIB


def instructions(program, words, file):
    """How many instructions the program takes with these words, whatever else the machine does."""
    counting = ["valgrind", "--tool=callgrind", "--callgrind-out-file=/dev/null", program, *words]
    with open(file, "rb") as given:
        ran = subprocess.run(counting, stdin=given, stdout=subprocess.DEVNULL, stderr=subprocess.PIPE, text=True)
    found = re.search(r"Collected : (\d+)", ran.stderr)
    if ran.returncode or not found:
        sys.exit(f"{' '.join(counting)}: {ran.stderr[-500:]}")
    return int(found[1])


def show(name, program, command, lines, size, runs):
    """Prints the speed and memory of a command on a text of that size, how the time grows with
    twice as much, and the instructions of a front of it."""
    with tempfile.TemporaryDirectory() as folder:
        file = os.path.join(folder, "input")
        write_up_to(COUNTED, file, lines)
        counted = instructions(program, [command], file) / os.path.getsize(file)
        write_up_to(size, file, lines)
        seconds, memory, faults = measure(program, command, file, runs)
        write_up_to(2 * size, file, lines)
        twice, _, _ = measure(program, command, file, runs)
    print(name)
    print(f"  {size / MIB:.0f} MiB in {seconds:.3f} s: {size / MIB / seconds:.0f} MiB of text a second")
    print(f"  greatest resident memory {memory / MIB:.0f} MiB, {memory / size:.2f} times the input; {faults:,.0f} page faults")
    print(f"  time at {2 * size / MIB:.0f} MiB is {twice / seconds:.2f} times that; {counted:.1f} instructions a byte", flush=True)


# What `bench/sent`, a library that benches share, uses.
SENT = "docsis_wire flow_core"


def prove_and_build(room, runner, uses, layers):
    """The program of a bench, whose sources are beside its runner, proved and built over copies of
    these crates, over what earlier checks of them kept. Of these it uses some, libraries of the
    toolchain and `sent` where it names that."""
    folder = os.path.dirname(os.path.abspath(runner))
    name = f"{os.path.basename(folder)}_bench"
    scratch.copy_crates(room, layers, with_kept=True)
    if "sent" in uses.split():
        scratch.add_crate(room, "sent", SENT, path("bench", "sent"))
    crate = scratch.add_crate(room, name, uses, folder)
    built = children.run(["rt", "run"], cwd=crate)
    if built.returncode != 0:
        sys.exit(built.stdout)
    return os.path.join(crate, "out", name), built.stdout


def built_rates(runner, uses, layer, forms, cases, runs):
    """The median rates of the program of a bench, which is proved and built first."""
    with scratch.folder() as room:
        program, _ = prove_and_build(room, runner, uses, [layer])
        return median_rates(program, forms, cases, runs)


def median_rates(program, forms, cases, runs):
    """The median of how many a second went through, for each form and case. Each run is a process
    of its own, so that all begin with the same memory; the forms of a case run one after another,
    in one order and then in the other."""
    rates = collections.defaultdict(list)
    for run in range(runs):
        for case in cases:
            for form in forms if run % 2 == 0 else reversed(forms):
                said = subprocess.run([program, form, *map(str, case)], capture_output=True, text=True, check=True)
                count, nanoseconds = map(int, said.stdout.split())
                rates[form, case].append(count * 1e9 / nanoseconds)
    return {which: statistics.median(found) for which, found in rates.items()}
