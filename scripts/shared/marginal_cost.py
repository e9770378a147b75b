"""What one thing more costs the program: by how many instructions it takes more for more of them,
so that what doesn't depend on their number is left out.
"""

import os
import subprocess
import sys

from shared.job_costs import SAME_EVERYWHERE, instructions_by_function

SECONDS = 300


def instructions(segrx, words, count, made, is_right, room):
    """How many instructions the program takes for the input of so many."""
    file = os.path.join(room, "marginal.callgrind")
    command = ["valgrind", "--tool=callgrind", f"--callgrind-out-file={file}", segrx, *words]
    environment = {**os.environ, "GLIBC_TUNABLES": SAME_EVERYWHERE}
    given = b"".join(made(count))
    done = subprocess.run(command, env=environment, input=given, capture_output=True, timeout=SECONDS)
    if done.returncode != 0 or not is_right(done.stdout, count):
        sys.exit(f"{' '.join(words)[:60]}: status {done.returncode}: {done.stderr[-500:].decode()}")
    return instructions_by_function(file).total()


def of_one_more(segrx, words, few, many, made, is_right, room):
    """How many instructions it takes more for each above `few`, up to `many`."""
    less, more = (instructions(segrx, words, count, made, is_right, room) for count in (few, many))
    return (more - less) / (many - few)
