"""What the programs that a script runs leave behind when they end: processes that they started, of
which this process becomes the parent then.
"""

import contextlib
import ctypes
import os
import signal
import time

from shared import children

PR_SET_CHILD_SUBREAPER = 36


def adopt():
    """Has what outlives the programs that are run here become children of this process."""
    ctypes.CDLL(None).prctl(PR_SET_CHILD_SUBREAPER, 1)


def adopted():
    """The children of this process, each with its arguments."""
    with open(f"/proc/{os.getpid()}/task/{os.getpid()}/children") as listed:
        for number in listed.read().split():
            with contextlib.suppress(OSError), open(f"/proc/{number}/cmdline") as words:
                yield int(number), words.read().replace("\0", " ").strip()


def bury():
    """Takes leave of adopted processes that ended: until then the groups in which they ran aren't
    empty. What was run by `children` has its own look at how it ended."""
    with children.lock:
        own = {child.pid for child in children.running}
    for number, _ in adopted():
        if number not in own:
            with contextlib.suppress(ChildProcessError):
                os.waitpid(number, os.WNOHANG)


def all_end_within(seconds):
    """Whether each child of this process ends within so many seconds."""
    until = time.monotonic() + seconds
    while time.monotonic() < until:
        try:
            if os.waitpid(-1, os.WNOHANG)[0] == 0:
                time.sleep(0.05)
        except ChildProcessError:
            return True
    return False


def left_processes(seconds):
    """What runs on for so many seconds of all that was started here. Then it is killed."""
    left = []
    while not all_end_within(seconds):
        found = list(adopted())
        left += [words for _, words in found]
        for number, _ in found:
            with contextlib.suppress(ProcessLookupError):
                os.kill(number, signal.SIGKILL)
        seconds = 1
    return left
