"""Flows of modems that are made by chance: their frames, how they are cut into segments, and when
each segment comes on which channel. Some are lost, neighbours on a channel may be recorded the
other way round, and there are silences and outages.

`broken_premises` says why a flow need not give exactly its frames all of whose segments came in:
nothing where it has to.
"""

import bisect
import collections
import itertools
import math

from shared.check_sequences import header_sequence
from shared.generated_traces import header_of
from shared.modem_frames import some_long_frame, some_modem_frame, some_spoiled_frame
from shared.plain_capture import BEGINNING, MILLISECOND
from shared.plain_map import AUTO, MapFlow
from shared.plain_reading import AHEAD, MODULUS, Cut

# When a segment comes, on which channel, and its index.
Arrival = collections.namedtuple("Arrival", "time channel index")
# How many bytes of the stream of frames a segment has, also where many segments are made of which
# few come.
SIZES, SHORT_SIZES, LONG_SIZES = (0, 20, 40, 60, 100, 250), (8, 20, 40), (60, 400, 900, 1500, 2000)
# How many milliseconds a rest lasts: in most cases longer than a bound in time, and now and then
# about as long as one.
RESTS, NEAR_BOUNDS = range(25, 400), [9, 10, 11, 19, 20, 21, 22]


class Way:
    """How segments get from modems into a capture: how much later each channel is, how many are
    lost, and so on. A calm way keeps the premises, but for what can happen by chance."""

    def __init__(self, rng, channels, is_calm):
        self.is_calm, self.channels = is_calm, channels
        self.start = 1_700_000_000 * 10**9 + rng.randrange(10**9)
        most = rng.choice([0.5, 1, 4] if is_calm else [0.5, 4, 9, 15, 40])
        self.skews = {channel: int(rng.random() * most * MILLISECOND) for channel in channels}
        self.losses = rng.choice([0, 0, 0.01, 0.05, 0.1])
        self.swaps = rng.choice([0, 0, 0.05, 0.3])
        self.rests = rng.choice([0, 0, 0.01, 0.05])
        self.repeats, self.delays = (0, 0) if is_calm else (rng.choice([0, 0, 0.02]), rng.choice([0, 0, 0.02]))
        self.pace = rng.choice([0.03, 0.1, 0.3, 1]) * MILLISECOND
        # Times are its multiples, so that bounds in time are just met.
        self.grid = rng.choice([1, 1, 1, MILLISECOND // 2])
        self.outages = []  # how many segments each outage takes
        self.sizes, self.new_frame = (LONG_SIZES, some_long_frame) if rng.random() < 0.1 else (SIZES, some_modem_frame)
        self.has_spoiled_frames = not is_calm and rng.random() < 0.3
        if self.has_spoiled_frames:
            self.new_frame = some_spoiled_frame


class ModemFlow:
    """A flow, with the arrivals of its segments in the order in which they are recorded."""

    def __init__(self, rng, index, way, count):
        self.rng, self.index, self.way = rng, index, way
        self.first = rng.choice([8190, 8191, 8100, 4095, 0, rng.randrange(MODULUS)])
        self.window = rng.choice([128, 256, 1024, 1024, 4096] if way.is_calm else [1, 3, 16, 128, 1024, 4096])
        self.is_auto, self.clusters = rng.random() < 0.5, rng.choice([1, 1, 2, 3, 8])
        own = rng.sample(way.channels, rng.randrange(1, len(way.channels) + 1))
        # The last one may be idle: it is the flow's, and nothing comes there.
        self.channels, self.used = sorted(own), own[:-1] if len(own) > 1 and rng.random() < 0.2 else own
        outages = {rng.randrange(count): size for size in way.outages}
        self.cut = Cut(rng, self.first, count + sum(outages.values()), way.new_frame, way.sizes)
        self.arrivals = self.dealt(count, outages)
        for channel in self.used:
            self.swap_neighbours(channel)
        if not way.is_calm:
            self.disturb()
        self.arrivals.sort(key=lambda one: one.time)
        self.arrivals = [one._replace(time=one.time // way.grid * way.grid) for one in self.arrivals]

    def dealt(self, count, outages):
        """The arrivals of all that isn't lost, on each channel in order."""
        rng, way = self.rng, self.way
        time, index, last, arrivals = way.start + rng.randrange(20) * MILLISECOND, 0, {}, []
        for place in range(count):
            if place in outages:
                index += outages[place]
                time += int(max(outages[place] * way.pace, rng.choice([0, 30 * MILLISECOND])))
            time += int(way.pace * (0.5 + rng.random()))
            if rng.random() < way.rests:
                time += rng.choice([rng.choice(RESTS), rng.choice(RESTS), rng.choice(NEAR_BOUNDS)]) * MILLISECOND
            channel = rng.choice(self.used)
            last[channel] = max(time + way.skews[channel] + rng.randrange(50_000), last.get(channel, 0) + 1000)
            if rng.random() >= way.losses:
                arrivals.append(Arrival(last[channel], channel, index))
            index += 1
        return arrivals

    def swap_neighbours(self, channel):
        """Some neighbours on a channel, not more than 1.9 ms from one another, come in each other's
        place."""
        places = [place for place, one in enumerate(self.arrivals) if one.channel == channel]
        most, at = 1.9 * MILLISECOND, 0
        while at + 1 < len(places):
            before, after = self.arrivals[places[at]], self.arrivals[places[at + 1]]
            if after.time - before.time < most and self.rng.random() < self.way.swaps:
                self.arrivals[places[at]] = before._replace(time=after.time)
                self.arrivals[places[at + 1]] = after._replace(time=before.time)
                at += 1
            at += 1

    def disturb(self):
        """Some come late, or once more on any channel."""
        rng = self.rng
        for place, one in enumerate(list(self.arrivals)):
            late = one.time + rng.choice([1, 3, 15, 30]) * MILLISECOND
            if rng.random() < self.way.delays:
                self.arrivals[place] = one._replace(time=late)
            if rng.random() < self.way.repeats:
                self.arrivals.append(Arrival(late, rng.choice(self.channels), one.index))

    def map_flow(self, sfid):
        return MapFlow(sfid, AUTO if self.is_auto else self.first, self.window, self.clusters)

    def segment(self, index, cluster=0, request=0, is_reserved=False):
        """The bytes of a segment, with a right check sequence."""
        pointer, sequence, payload = self.cut.segments[index]
        words = header_of([pointer | 0x4000 * is_reserved, sequence << 3 | cluster, request])
        return words + header_sequence(words) + payload

    def frames_all_of_which_came(self, came):
        return list(self.cut.frames_over({one.index for one in came}.__contains__))


def lateness(arrivals):
    """By how much an arrival came at most after the first one with a greater index."""
    most, first = 0, math.inf
    for one in sorted(arrivals, key=lambda one: -one.index):
        most, first = max(most, one.time - first), min(first, one.time)
    return most


class GreatestIndex:
    """The greatest index of those that came until a time."""

    def __init__(self, came):
        self.times = [one.time for one in came]
        self.greatest = list(itertools.accumulate((one.index for one in came), max))

    def until(self, time, least):
        """It, or this number where it is less or nothing came."""
        count = bisect.bisect_right(self.times, time)
        return max(least, self.greatest[count - 1]) if count else least


def broken_premises(flow, came, wait=20, reorder=2):
    """The premises broken by arrivals that came in this order at these times and were admitted."""
    wait, reorder = wait * MILLISECOND, reorder * MILLISECOND
    if flow.way.has_spoiled_frames:
        return {"right headers"}
    if any(after.time < before.time for before, after in itertools.pairwise(came)):
        return {"times in order"}
    if len({one.index for one in came}) < len(came):
        return {"each segment once"}
    broken, greatest = set(), GreatestIndex(came)
    if any(lateness(one for one in came if one.channel == channel) > reorder for channel in flow.channels):
        broken.add("order on a channel")
    if lateness(came) > min(wait, BEGINNING) - reorder:
        broken.add("lag within the time")
    if any(greatest.until(one.time + reorder, 0) - one.index >= flow.window for one in came):
        broken.add("lag within the window")
    return broken or broken_by_outages(flow, came, wait, reorder, greatest)


def broken_by_outages(flow, came, wait, reorder, greatest):
    """The same of silences and outages, where the others hold. What lies below `base` is settled,
    or hasn't been the flow's since it began or began anew."""
    base = min(one.index for one in came) if flow.is_auto and came else 0
    least_from = list(itertools.accumulate((one.index for one in reversed(came)), min))[::-1]
    for place, one in enumerate(came):
        gap = one.time - came[place - 1].time if place > 0 else 0
        # Each burst is handed on up to `reorder` before it came, so gaps may be longer or shorter
        # by as much.
        if gap + reorder > wait:
            expected = greatest.until(came[place - 1].time, 0) + 1
            # One of these is handed on first: it shows how many rounds of numbers have gone by, and
            # whether the flow goes on.
            firsts = [it.index for it in came[place:] if it.time <= one.time + reorder]
            rounds = {(first - expected) // MODULUS for first in firsts}
            goes_on = {(first - expected) % MODULUS < flow.window for first in firsts}
            if len(rounds) > 1 or len(goes_on) > 1 or (gap - reorder <= wait and goes_on != {True}):
                return {"an outage that can be told"}
            passed = expected + MODULUS * rounds.pop()
            # Where rounds have gone by and the flow goes on, the expected number must be missing,
            # and none before it come.
            if goes_on == {True} and passed > expected and least_from[place] <= passed:
                return {"an outage that can be told"}
            if gap - reorder > wait:
                base = passed if goes_on == {True} else least_from[place]
        if one.index - greatest.until(one.time - wait - 2 * reorder, base) >= AHEAD:
            return {"nearness"}
    return set()
