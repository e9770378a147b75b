"""Frames and segments, and the long texts of them that the benches give to the program."""

import itertools
import random

MIB = 1 << 20
CHANNELS, FLOWS = 4, 64


def frame(length, rng):
    """A frame of so many bytes without an extended header."""
    body = bytes(rng.getrandbits(8) for _ in range(min(length - 4, 64)))
    body = (body * (length // max(len(body), 1) + 1))[: length - 4]
    return bytes([0x00, 0x00]) + (length - 6).to_bytes(2, "big") + body


def header(first_start, number):
    pfi = 0 if first_start is None else 0x8000 | first_start
    return pfi.to_bytes(2, "big") + ((number % 8192) << 3).to_bytes(2, "big") + bytes(4)


def segments(frames, size):
    """The segments of a cut of the frames into chunks of so many bytes."""
    stream, starts, place = bytearray(), [], 0
    number, begun = 0, 0
    for one in frames:
        starts.append(place)
        stream += one
        place += len(one)
        while place - begun >= size:
            inside = [s for s in starts if begun <= s < begun + size]
            yield header(inside[0] - begun if inside else None, number) + stream[:size]
            starts = [s for s in starts if s >= begun + size]
            del stream[:size]
            begun += size
            number += 1


def ordinary(rng):
    """Frames of 64 to 1,518 bytes."""
    lengths = [rng.randint(64, 1518) for _ in range(256)]
    pool = [frame(length, rng) for length in lengths]
    while True:
        yield pool[rng.randrange(256)]


def longest(rng):
    """Frames of 65,541 bytes."""
    one = frame(65541, rng)
    while True:
        yield one


def join_lines(frames, chunk):
    """Segments, one a line."""
    for segment in segments(frames, chunk):
        yield segment.hex().encode() + b"\n"


def cut_lines(frames, chunk):
    """Frames, each with a line for each piece of so many bytes that begins in it."""
    place = begun = 0
    for one in frames:
        yield b"frame " + one.hex().encode() + b"\n"
        place += len(one)
        while place - begun >= chunk:
            yield f"piece {chunk} 0\n".encode()
            begun += chunk


def flow_lines(count, window):
    """Flows, of which each has one SID on each channel, its index."""
    for flow in range(count):
        yield b"flow %d 0 %d 1\n" % (flow, window)
    for channel, flow in itertools.product(range(CHANNELS), range(count)):
        yield b"sid %d %d %d\n" % (channel, flow, flow)


def grant(channel, number, sid, segment):
    return b"grant %d %d %d %d\n" % (channel, number, sid, len(segment))


def burst(channel, number, segment):
    return b"burst %d %d ok %s\n" % (channel, number, segment.hex().encode())


def ordinary_lines(flows, window=16):
    """Each flow in turn sends four segments at once, one a channel, which come in any order."""
    rng = random.Random(20)
    yield from flow_lines(flows, window)
    sent = [segments(ordinary(rng), 1500) for _ in range(flows)]
    for number in itertools.count():
        sid = number % flows
        at_once = list(enumerate(itertools.islice(sent[sid], CHANNELS)))
        yield from (grant(channel, number, sid, segment) for channel, segment in at_once)
        rng.shuffle(at_once)
        yield from (burst(channel, number, segment) for channel, segment in at_once)


def write_up_to(size, path, lines):
    """Appends lines until the text has so many bytes."""
    with open(path, "ab") as out:
        written = out.tell()
        while written < size:
            written += out.write(next(lines))
