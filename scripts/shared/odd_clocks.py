"""What the clock of an analyser can do to the times of a recording: it may be right, stand still,
as where a file's times were lost, count whole milliseconds, be set back once by a second, or be off
by up to a millisecond now and then.

`broken_premises_by` says of a flow that was recorded so why it need not give exactly its frames all
of whose segments came in.
"""

import itertools

from shared.modem_flows import broken_premises
from shared.plain_capture import MILLISECOND, MOST_WAITING
from shared.plain_reading import AHEAD

RIGHT, STILL, MILLISECONDS, SET_BACK, NOISY = "right", "still", "in whole milliseconds", "set back", "noisy"
CLOCKS = [RIGHT, STILL, MILLISECONDS, SET_BACK, NOISY]
SECOND = 1000 * MILLISECOND


def some_clock(rng):
    """The right one in every second recording."""
    return RIGHT if rng.random() < 0.5 else rng.choice(CLOCKS[1:])


def recorded_times(rng, clock, times):
    """The times that stand in a recording by this clock, of records in their order."""
    if clock == STILL:
        return times[:1] * len(times)
    if clock == MILLISECONDS:
        return [time // MILLISECOND * MILLISECOND for time in times]
    if clock == SET_BACK:
        place = rng.randrange(len(times) + 1)
        return [time - SECOND * (at >= place) for at, time in enumerate(times)]
    if clock == NOISY:
        return [time + rng.randrange(MILLISECOND) for time in times]
    return list(times)


def strides(came):
    """By how much each index lies above all before it, where it does."""
    greatest = list(itertools.accumulate((one.index for one in came), max))
    return [after - before for before, after in itertools.pairwise(greatest)]


def stays_within_half(came, most):
    """Whether so many neighbours, or a few more, never spread over half of all numbers."""
    indexes, step = [one.index for one in came], 64
    parts = [indexes[place : place + most + step] for place in range(0, len(indexes), step)]
    return all(max(part) - min(part) < AHEAD for part in parts)


def crosses(came, place):
    """Whether on some channel a segment stands before this place and one with a lower index behind
    it."""
    before, behind = came[:place], came[place:]
    channels = {one.channel for one in came}
    greatest = {channel: max((one.index for one in before if one.channel == channel), default=-1) for channel in channels}
    return any(one.index < greatest[one.channel] for one in behind)


def broken_premises_by(clock, flow, came, times, wait=20, reorder=2):
    """The premises that arrivals break, which came in this order, with their true times, and have
    these in the recording."""
    if clock in (STILL, SET_BACK):
        return broken_premises(flow, came, wait, reorder) or broken_without_silences(flow, came, times)
    going_on = list(itertools.accumulate(times, max))
    if any(last - time > reorder * MILLISECOND for last, time in zip(going_on, times)):
        return {"a clock that goes on"}
    return broken_premises(flow, [one._replace(time=time) for one, time in zip(came, going_on)], wait, reorder)


def broken_without_silences(flow, came, times):
    """The same where no silence is seen, nor what is held for long: then numbers alone have to say
    what is missing."""
    if any(stride + flow.window > AHEAD for stride in strides(came)) or not stays_within_half(came, MOST_WAITING + 1):
        return {"an outage that can be told by numbers"}
    back = [place for place, (before, after) in enumerate(itertools.pairwise(times), 1) if after < before]
    return {"order on a channel where the clock is set back"} if any(crosses(came, place) for place in back) else set()
