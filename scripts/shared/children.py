"""Runs programs, none of which outlives the script, also where it is interrupted or told to end."""

import contextlib
import os
import signal
import subprocess
import sys
import threading
import time

ENDING = (signal.SIGTERM, signal.SIGHUP, signal.SIGINT)
SECONDS_TO_END = 5
running, lock = set(), threading.Lock()
state = {"ends": False}


class Ended(Exception):
    """The script ends, so nothing more is run."""


def end_with(number, _frame):
    for ending in ENDING:
        signal.signal(ending, signal.SIG_IGN)
    sys.exit(128 + number)


def send(child, number):
    """Sends a signal to a program and all that it started in its own group."""
    with contextlib.suppress(ProcessLookupError):
        os.killpg(child.pid, number)


def end_all():
    """Ends all that runs, and has nothing more run. A script among it has some seconds to end what
    it runs itself."""
    with lock:
        state["ends"] = True
        left = list(running)
    for child in left:
        send(child, signal.SIGTERM)
    until = time.monotonic() + SECONDS_TO_END
    while time.monotonic() < until and any(child.poll() is None for child in left):
        time.sleep(0.05)
    for child in left:
        send(child, signal.SIGKILL)


@contextlib.contextmanager
def guarded():
    """While this is entered a signal that ends the script raises SystemExit, and at its end all
    that was run is killed."""
    state["ends"] = False
    before = {ending: signal.signal(ending, end_with) for ending in ENDING}
    try:
        yield
    finally:
        end_all()
        for ending, handler in before.items():
            signal.signal(ending, handler)


@contextlib.contextmanager
def started(words, **how):
    """A program that runs, with what it prints as text, standard error among it. It is killed, with
    all that it started, where the block is left before it has ended."""
    how = {"stdout": subprocess.PIPE, "stderr": subprocess.STDOUT, "text": True, "errors": "replace", **how}
    with lock:
        if state["ends"]:
            raise Ended
        child = subprocess.Popen(words, stdin=subprocess.DEVNULL, start_new_session=True, **how)
        running.add(child)
    try:
        yield child
    finally:
        if child.poll() is None:
            send(child, signal.SIGKILL)
            child.wait()
        with lock:
            running.discard(child)
    with lock:
        if state["ends"]:
            raise Ended


def run(words, seconds=None, **how):
    """As subprocess.run of a started program. One that takes longer than these seconds is killed,
    and subprocess.TimeoutExpired is raised."""
    with started(words, **how) as child:
        said, _ = child.communicate(timeout=seconds)
    return subprocess.CompletedProcess(words, child.returncode, said)
