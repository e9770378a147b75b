"""How much more memory is resident where windows are wide, of flows whose segments come in order:
places of a window that no number has reached take none, and a flow in order uses the same few.
"""

import subprocess
import sys
import tempfile

WIDE, NARROW = 4096, 16
# How many flows send how many segments each: many that have just begun, and some that went round
# their windows.
TRAFFIC = {"just begun": (1000, 2), "once round": (50, 5000)}
CHANNELS = 16


def trace(window, flows, each):
    """A trace of flows that take turns, each segment with a grant and a frame of 8 bytes."""
    yield from (f"flow {flow} 0 {window} 1\n" for flow in range(flows))
    yield from (f"sid {flow % CHANNELS} {1 + flow // CHANNELS} {flow}\n" for flow in range(flows))
    for number in range(each):
        for flow in range(flows):
            grant = f"{flow % CHANNELS} {number * flows + flow}"
            header = f"8000{number % 8192 << 3:04x}00000000"
            yield f"grant {grant} {1 + flow // CHANNELS} 16\nburst {grant} ok {header}000000021111aabb\n"


def resident(segrx, window, flows, each):
    """The most bytes that were resident."""
    with tempfile.TemporaryFile("w+") as given, tempfile.NamedTemporaryFile("r") as told:
        given.writelines(trace(window, flows, each))
        given.seek(0)
        timed = ["time", "-f", "%M", "-o", told.name, segrx, "follow"]
        done = subprocess.run(timed, stdin=given, stdout=subprocess.PIPE, stderr=subprocess.PIPE, text=True)
        if done.returncode != 0 or done.stdout.count("\nframe ") + done.stdout.startswith("frame ") != flows * each:
            sys.exit(f"segrx follow ended with {done.returncode}: {done.stderr[-500:]}")
        return 1024 * int(told.read())


def measured_windows(segrx):
    """How many bytes more are resident with wide windows than with narrow ones for each flow, by
    what the flows send."""
    return {
        name: (resident(segrx, WIDE, flows, each) - resident(segrx, NARROW, flows, each)) / flows
        for name, (flows, each) in TRAFFIC.items()
    }
