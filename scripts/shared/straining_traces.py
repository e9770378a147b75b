"""Traces for `segrx replay` that strain one thing: segments of a few bytes, many grants, many SIDs,
a window that is filled backwards. Each goes on for ever.
"""

import itertools
import random

from shared.long_texts import CHANNELS, FLOWS, burst, flow_lines, frame, grant, header, longest, segments

SIDS, GRANTS, WINDOW = 1 << 14, 1 << 16, 4096
SMALL = frame(8, random.Random(20))


def small_segment(number):
    """A segment of one frame of 8 bytes."""
    return header(0, number) + SMALL


def small_lines():
    """Segments of one frame of 8 bytes on all channels, with few grants outstanding and one SID."""
    yield from flow_lines(1, 16)
    for k in itertools.count():
        segment = small_segment(k)
        yield grant(k % CHANNELS, k % 8, 0, segment) + burst(k % CHANNELS, k % 8, segment)


def many_grants_lines():
    """As many grants of a channel are outstanding as may be, under numbers all over their range;
    the oldest one's burst comes, and a new grant."""
    yield from flow_lines(1, 16)
    numbers = (k * 2654435761 % (1 << 32) for k in itertools.count())
    for number in itertools.islice(numbers, GRANTS):
        yield grant(0, number, 0, small_segment(0))
    oldest = (k * 2654435761 % (1 << 32) for k in itertools.count())
    for k, (spent, number) in enumerate(zip(oldest, numbers)):
        segment = small_segment(k)
        yield burst(0, spent, segment) + grant(0, number, 0, segment)


def many_sids_lines():
    """As many SIDs as there are on all channels, and grants to all of them."""
    for flow in range(FLOWS):
        yield b"flow %d 0 16 1\n" % flow
    for channel, sid in itertools.product(range(CHANNELS), range(SIDS)):
        yield b"sid %d %d %d\n" % (channel, sid, sid % FLOWS)
    sent = [0] * FLOWS
    for k in itertools.count():
        channel, sid = k % CHANNELS, k * 40503 // CHANNELS % SIDS
        segment = small_segment(sent[sid % FLOWS])
        sent[sid % FLOWS] += 1
        yield grant(channel, k % 8, sid, segment) + burst(channel, k % 8, segment)


def backwards_lines():
    """A window of the greatest width, filled from its end to its front again and again."""
    yield from flow_lines(1, WINDOW)
    for first in itertools.count(0, WINDOW):
        for number in reversed(range(first, first + WINDOW)):
            segment = small_segment(number)
            yield grant(number % CHANNELS, 1, 0, segment) + burst(number % CHANNELS, 1, segment)


def one_byte_lines():
    yield from flow_lines(1, 16)
    for segment in segments(longest(random.Random(20)), 1):
        yield grant(0, 1, 0, segment) + burst(0, 1, segment)
