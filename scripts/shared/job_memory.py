"""How much memory is resident at most while the program takes inputs of several shapes, each of one
size and of four times that size. One flow sends on four channels in turn, in segments of one size.
"""

import itertools
import os
import random
import subprocess
import sys
import tempfile

from shared.long_captures import SIZE, map_lines, of_pool, ordinary, packed
from shared.long_texts import CHANNELS, MIB, burst, flow_lines, grant, header, segments

SMALL, TIMES = 8 * MIB, 4
# Of so many turns the least counts: where the system puts things makes some of them larger.
TURNS = 3
MAP = "one_flow.map"
# Commands for some flows: a replay for the one that sends, so that all is told, and others for another.
SHARDS = {
    "shard_that_tells": ["replay", "--flows", "0"],
    "shard_that_tells_none": ["replay", "--flows", "1"],
    "follow_that_tells_none": ["follow", "--flows", "1"],
    "capture_that_tells_none": ["capture", MAP, "--flows", "1"],
}
# The commands whose memory may not grow with their input, and those that hold it and may take so
# much for each frame.
FLAT = ("capture", "follow", "shard_that_tells_none", "follow_that_tells_none", "capture_that_tells_none")
HOLDING = ("replay", "join", "shard_that_tells")
# How the line of a frame begins.
FRAME_LINES = {"replay": b"frame ", "join": b"", "shard_that_tells": b"frame "}
SHORT = 200  # bytes of the frames that have fill behind them
# A frame of two bytes behind its header, whose check sequence a capture finds wrong.
TINY = bytes([0, 0, 0, 2, 0, 0, 1, 2])


def whole(rng):
    """Segments of which each is a whole frame."""
    return segments(of_pool([SIZE] * 64, rng), SIZE)


def tiny(_rng):
    """Segments of which each is a whole frame of few bytes."""
    return segments(itertools.repeat(TINY), len(TINY))


def filled(rng):
    """Segments with a short frame, and fill behind it."""
    for number, frame in enumerate(of_pool([SHORT] * 64, rng)):
        yield header(0, number) + frame + bytes(SIZE - len(frame))


SHAPES = {shape.__name__: shape for shape in (ordinary, whole, filled, tiny)}


def join_text(sent):
    return (segment.hex().encode() + b"\n" for segment in sent)


def trace_text(sent):
    yield from flow_lines(1, 16)
    for number, segment in enumerate(sent):
        yield grant(number % CHANNELS, number, 0, segment) + burst(number % CHANNELS, number, segment)


# What makes an input of which commands.
INPUTS = {
    join_text: ["join"],
    trace_text: ["follow", "replay", *(command for command, words in SHARDS.items() if words[0] != "capture")],
    packed: ["capture", "capture_that_tells_none"],
}


def words_of(command, room):
    """The words of a command; `capture` has the map beside its input."""
    words = ["capture", MAP] if command == "capture" else SHARDS.get(command, [command])
    return [os.path.join(room, word) if word == MAP else word for word in words]


def write_input(make, shape, size, file):
    """Writes an input of a shape and at least so many bytes."""
    written = 0
    for piece in make(SHAPES[shape](random.Random(20))):
        written += file.write(piece)
        if written >= size:
            return


def resident(segrx, command, room, given, taken):
    """The most bytes that were resident while the program took an input. GNU time starts it, since
    Linux counts for a child what its parent held when it began."""
    told = os.path.join(room, f"resident-{os.path.basename(given.name)}")
    timed = ["time", "-f", "%M", "-o", told, segrx, *words_of(command, room)]
    for file in given, taken:
        file.seek(0)
    done = subprocess.run(timed, stdin=given, stdout=taken, stderr=subprocess.PIPE, text=True)
    if done.returncode != 0:
        sys.exit(f"segrx {command} ended with {done.returncode}: {done.stderr[-500:]}")
    with open(told) as file:
        return 1024 * int(file.read())


def frames_in(command, taken):
    """How many frames stand in the text that a command gave."""
    taken.seek(0)
    return sum(line.startswith(FRAME_LINES[command]) for line in taken)


def held(segrx, command, room, given):
    """The most bytes that were resident while the program took an input, and how many frames it
    gave, where it holds them."""
    with tempfile.TemporaryFile() as taken:
        most = min(resident(segrx, command, room, given, taken) for _ in range(TURNS))
        return most, 0 if command in FLAT else frames_in(command, taken)


def growth(command, small, large):
    """How many bytes more are resident with the large input: of a command whose memory may not grow
    for each byte more of it, and of one that holds its input for each frame more."""
    (most, many), (least, few) = large, small
    return (most - least) / (SMALL * (TIMES - 1) if command in FLAT else many - few)


def growths(segrx, make, shape, room):
    """How the memory of each command grows that takes these inputs."""
    found = []
    for size in SMALL, SMALL * TIMES:
        with tempfile.NamedTemporaryFile("w+b", dir=room) as given:
            write_input(make, shape, size, given)
            found.append([held(segrx, command, room, given) for command in INPUTS[make]])
    return [((command, shape), growth(command, *pair)) for command, *pair in zip(INPUTS[make], *found)]


def measured_memory(segrx, pool):
    """Of each command and shape how its memory grows."""
    with tempfile.TemporaryDirectory() as room:
        with open(os.path.join(room, MAP), "w") as file:
            file.write(map_lines())
        # What takes longest to make first.
        kinds = itertools.product(reversed(INPUTS), reversed(SHAPES))
        of_inputs = pool.map(lambda kind: growths(segrx, *kind, room), kinds)
        found = dict(itertools.chain.from_iterable(of_inputs))
    return {pair: found[pair] for pair in itertools.product(FLAT + HOLDING, SHAPES)}
