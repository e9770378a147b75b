"""Traces for `segrx follow`, and how much memory the program holds on the way. Of the one without
end one flow sends frames of 64 to 1,518 bytes in segments of 1,500 on four channels.
"""

import itertools
import os
import random
import subprocess
import sys

from shared.long_texts import CHANNELS, MIB, burst, flow_lines, frame, grant, header, ordinary, segments

SEGMENTS, SIZE = 8192, 1500
# How many segments are given at once.
AT_ONCE = 512
# The most channels that the program takes, with which it takes the most flows.
WIDEST = 16
# Of the flows that lose the rest of a longest frame: how many, and how many bytes of it come.
LOSING, FRONT = 512, 16384


def frames_of(length, rng):
    """Frames of so many bytes together."""
    ordinary_ones = ordinary(rng)
    while length > 2 * SIZE:
        one = next(ordinary_ones)
        length -= len(one)
        yield one
    yield frame(length // 2, rng)
    yield frame(length - length // 2, rng)


def round_of_numbers():
    """The lines of as many segments as there are numbers, so many at once. The last one ends with a
    frame, so they may be given again and again."""
    lines = []
    for number, segment in enumerate(segments(frames_of(SEGMENTS * SIZE, random.Random(20)), SIZE)):
        lines.append(grant(number % CHANNELS, number, 0, segment) + burst(number % CHANNELS, number, segment))
    assert len(lines) == SEGMENTS
    return [b"".join(lines[place : place + AT_ONCE]) for place in range(0, SEGMENTS, AT_ONCE)]


def resident(process):
    """The resident memory of a process, and the greatest so far, in bytes."""
    with open(f"/proc/{process}/status") as status:
        kept = dict(line.split(":", 1) for line in status)
    return [int(kept[name].split()[0]) * 1024 for name in ("VmRSS", "VmHWM")]


def given(command, chunks):
    """Gives the program these chunks of a text through a pipe, and yields behind each how many
    bytes were given, and the process that takes them."""
    passed = 0
    with open(os.devnull, "wb") as taken:
        child = subprocess.Popen(command, stdin=subprocess.PIPE, stdout=taken)
        for chunk in chunks:
            passed += child.stdin.write(chunk)
            child.stdin.flush()
            yield passed, child.pid
        child.stdin.close()
        status = child.wait()
    if status != 0:
        sys.exit(f"segrx ended with {status}")


def trace_of(size):
    """At least so many bytes of the trace without end."""
    yield b"".join(flow_lines(1, 16))
    for lines in itertools.cycle(round_of_numbers()):
        yield lines
        size -= len(lines)
        if size <= 0:
            return


def held_on_the_way(segrx, options, size, marks):
    """Gives the program that many MiB of the trace through a pipe, and yields once each of these
    hundredths was given, of which the last is all: the mark, how many bytes that were, the resident
    memory, and the greatest so far."""
    marks = list(marks)
    for passed, process in given([segrx, "follow", "--channels", str(CHANNELS), *options], trace_of(size * MIB)):
        if marks and passed * 100 >= marks[0] * size * MIB:
            yield marks.pop(0), passed, *resident(process)


def flows_that_lose():
    """The lines of flows that send, one after another, the front of a longest frame, whose rest is
    lost, and a whole frame."""
    rng = random.Random(20)
    long, short = frame(65541, rng), frame(64, rng)
    yield b"".join(flow_lines(LOSING, 16))
    for flow in range(LOSING):
        sent = [(number, header(0, number) + payload) for number, payload in ((0, long[:FRONT]), (2, short))]
        lines = [grant(0, number, flow, segment) + burst(0, number, segment) for number, segment in sent]
        yield b"".join([*lines, b"gap %d\n" % flow])


def held_after_losses(segrx):
    """How many flows the program takes that send the front of a longest frame, whose rest is lost,
    and a whole frame, and the greatest resident memory at the end."""
    command = [segrx, "follow", "--channels", str(WIDEST)]
    for _, process in given(command, flows_that_lose()):
        _, greatest = resident(process)
    return LOSING, greatest
