"""Runs commands side by side. What each of them prints is kept together, with its time."""

import concurrent.futures
import time
from collections import namedtuple

from shared import children
from shared.tree import path

Part = namedtuple("Part", "name words")
Done = namedtuple("Done", "name seconds passed")
# What needs no proof and takes seconds.
WITHOUT_PROOF = [
    Part("the sources' format", ["scripts/format"]),
    Part("links, names and proofs in the documents", ["scripts/documents"]),
    Part("the reading order of the definitions", ["scripts/reading", "--check"]),
    Part("planted mistakes that can be applied", ["scripts/mutants", "--check"]),
    Part("the benchmark's jobs and their files", ["bench/run", "--check"]),
]


def run_part(part, environment):
    """Runs a part, and returns what came of it and what it printed."""
    began = time.monotonic()
    try:
        ran = children.run(part.words, cwd=path(), env=environment)
    except OSError as error:
        return Done(part.name, 0.0, False), f"{error}\n"
    return Done(part.name, time.monotonic() - began, ran.returncode == 0), ran.stdout


def run_parts(parts, jobs, environment=None):
    """Runs parts side by side, as many as there are jobs, the first ones first. Returns what came
    of each, as they ended."""
    done = []
    with children.guarded(), concurrent.futures.ThreadPoolExecutor(jobs) as pool:
        try:
            for one in concurrent.futures.as_completed([pool.submit(run_part, part, environment) for part in parts]):
                ended, said = one.result()
                done.append(ended)
                print(f"== {ended.name}: {'passed' if ended.passed else 'FAILED'} in {ended.seconds:.0f} s", flush=True)
                print(said, end="" if said.endswith("\n") or not said else "\n", flush=True)
        except BaseException:
            children.end_all()
            pool.shutdown(wait=False, cancel_futures=True)
            raise
    return done


def show_times(done, whole):
    print("times:")
    for ended in done:
        print(f"{ended.seconds:6.0f} s  {ended.name}")
    print(f"{whole:6.0f} s  the whole")
