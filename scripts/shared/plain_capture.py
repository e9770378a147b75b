"""A plain, slow reading of what `segrx capture` answers to a capture with a map.

A burst is a grant and its burst on its channel: the grant has as many bytes as the greatest of 8,
its size in TLV 17 and the burst's length, and one number does for all of them, since each is spent
at once. What a lane refuses, it refuses as the burst comes, and its flow never sees it. With what
it will admit this is done:

1. It waits. A flow has a clock of its own: a burst that is earlier than the one before it counts as
   of that one's time, and where it is earlier by more than `reorder`, the clock is set back to it
   and all that waits is handed on first. Before a burst is taken in, each that has waited for
   longer than `reorder` has its turn: in the oldest one's place and at its time that one of its
   channel with the least number is handed on. With one more than 2,048 that wait the next is handed
   on, too.
2. It may stand in a beginning. One is kept for 10 ms, and for 2,048 bursts at most, where the
   flow's first number isn't known, and where after a silence of `wait` a number comes that doesn't
   lie ahead within the window; then the flow begins, or begins anew, at the least number in it.
3. It is handed in. Before that all that is missing is skipped before those that were handed in more
   than `wait` earlier and are still held.

Time passes for a flow as its own bursts come and are handed on. A frame has the time of that burst
of its flow that was handed in last when it was given, as it stands in the file. At the end of a
file all flows hand on what waits, one after another, and are then closed, one after another; where
the file has a fault neither is done.

The flows are those of plain_reading.py, with true indexes, the lanes those of plain_receiver.py.
"""

import collections
import math

from shared.check_sequences import ends_with_frame_sequence, ends_with_header_sequence
from shared.plain_map import AUTO, CHANNELS, read_map
from shared.plain_packets import OTHER_TYPE, CapturedBurst, CaptureFault, burst_in, records_of
from shared.plain_reading import AHEAD, MODULUS, SLID, LiveFlow, any_header, header, header_end
from shared.plain_receiver import Burst, Grant, Lane

MILLISECOND = 10**6
BEGINNING = 10 * MILLISECOND
# So many bursts of a flow wait at most, and make a beginning.
MOST_WAITING = 2048
DOCSIS = 143  # the link type of frames
UPSTREAM_FRAME = 80  # the type of a packet that holds one
UNKNOWN_CHANNEL, UNKNOWN_SID = "unknown channel", "unknown SID"
WAITS = "waits"  # a burst that its lane will admit, until it is handed in
# The types of the elements of an extended header that say whether a frame is encrypted.
PRIVACY = (3, 7)
RIGHT, WRONG, ENCRYPTED, NO_SEQUENCE = "right", "wrong", "encrypted", "no frame check sequence"

Settings = collections.namedtuple("Settings", "rule wait reorder check", defaults=(SLID, 20, 2, True))
# A burst that its lane will admit: when it came, on which channel, as what packet, and its
# segment's number.
Coming = collections.namedtuple("Coming", "time channel burst number")
GivenFrame = collections.namedtuple("GivenFrame", "flow time frame coming")
GivenRequest = collections.namedtuple("GivenRequest", "time channel sid flow cluster units")


def ahead(number, expected):
    """How far a number lies ahead of another one, from 0 to 8191."""
    return (number - expected) % MODULUS


def place_near(number, other):
    """By how much a number lies after another one: from 4096 before it to 4095 after it."""
    return ahead(number, other - AHEAD) - AHEAD


def grant_bytes(burst):
    return max(8, (burst.grant_bits or 0) // 8, len(burst.bytes))


def exceeds_grant(burst):
    return burst.grant_bits is not None and 8 * len(burst.bytes) > burst.grant_bits


def elements_of(extended):
    """The types and values of the elements of an extended header, up to one that overruns it."""
    while extended:
        kind, length = divmod(extended[0], 16)
        if length >= len(extended):
            return
        yield kind, extended[1 : 1 + length]
        extended = extended[1 + length :]


def is_encrypted(frame):
    extended = frame[4 : header_end(frame) - 2]
    return any(kind in PRIVACY and len(value) >= 2 and value[1] >= 128 for kind, value in elements_of(extended))


def sequence_of(frame):
    """What is known of the Ethernet check sequence in a frame: only a packet's frame has one."""
    if frame[0] not in (0x00, 0x01):
        return NO_SEQUENCE
    if is_encrypted(frame):
        return ENCRYPTED
    return RIGHT if ends_with_frame_sequence(ethernet_in(frame)) else WRONG


def ethernet_in(frame):
    return frame[header_end(frame) :]


class CapturedFlow:
    """What becomes of the bursts of one flow of a map that their lanes will admit."""

    def __init__(self, index, setup, channels, reading):
        self.index, self.setup, self.channels, self.reading = index, setup, channels, reading
        wait, reorder = reading.settings.wait, reading.settings.reorder
        self.wait, self.reorder = wait * MILLISECOND, reorder * MILLISECOND
        self.clock = None  # of this flow: when the last burst came
        self.waiting = []  # bursts and when they came by that clock, in the order they came in
        # What was handed on while the first number isn't known, and how long it isn't.
        self.beginning, self.until = [], None
        self.handed_on_at = None  # when the last one was
        self.handed_in = None  # the last one that was
        self.kept_at = {}  # when the held ones were handed on, by their indexes
        self.live, self.earlier, self.restarts = None, collections.Counter(), 0
        # How often the clock was set back, and how often too many would have waited.
        self.set_back, self.crowded = 0, 0
        if setup.first != AUTO:
            self.begin_at(setup.first)

    def begin_at(self, number):
        check = ends_with_header_sequence if self.reading.settings.check else any_header
        self.live = LiveFlow(number, self.setup.window, self.reading.settings.rule, self.channels, check)
        self.kept_at = {}

    def come(self, coming):
        """A burst comes: what has waited long enough is handed on, and then it waits."""
        if self.clock is not None and coming.time < self.clock - self.reorder:
            self.pass_on(math.inf)
            self.clock = coming.time
            self.set_back += 1
        self.clock = coming.time if self.clock is None else max(self.clock, coming.time)
        self.pass_on(self.clock)
        self.waiting.append((self.clock, coming))
        if len(self.waiting) > MOST_WAITING:
            self.hand_on_next()
            self.crowded += 1

    def pass_on(self, now):
        while self.waiting and self.waiting[0][0] + self.reorder < now:
            self.hand_on_next()

    def hand_on_next(self):
        came, oldest = self.waiting[0]
        of_channel = [one for one in self.waiting if one[1].channel == oldest.channel]
        least = min(of_channel, key=lambda one: place_near(one[1].number, oldest.number))
        self.waiting.remove(least)
        self.hand_on(came, least[1])

    def hand_on(self, time, coming):
        if self.until is not None and (time > self.until or len(self.beginning) >= MOST_WAITING):
            self.end_beginning()
        if self.until is None and (self.live is None or self.falls_out_after_silence(time, coming.number)):
            self.until = time + BEGINNING
        self.handed_on_at = time
        if self.until is not None:
            self.beginning.append((time, coming))
        else:
            self.hand_in(time, coming)

    def falls_out_after_silence(self, time, number):
        """Whether a silence is over and this number doesn't lie ahead within the window. After a
        silence all that is held has been held for long."""
        if self.handed_on_at is None or time - self.handed_on_at <= self.wait:
            return False
        self.skip_to_the_old(time)
        return ahead(number, self.live.number(self.live.expected)) >= self.setup.window

    def end_beginning(self):
        """The flow begins, or begins anew, at the least number in its beginning."""
        beginning, self.beginning, self.until = self.beginning, [], None
        if self.live is not None:
            self.restarts += 1
            self.close()
        some = beginning[0][1].number
        self.begin_at(min((coming.number for _, coming in beginning), key=lambda number: place_near(number, some)))
        for time, coming in beginning:
            self.hand_in(time, coming)

    def hand_in(self, time, coming):
        """The lane admits a burst, and its segment comes to the flow."""
        self.skip_to_the_old(time)
        self.reading.admit(self.index, coming)
        verdict, _ = self.live.told(coming.channel, coming.burst.bytes)
        self.reading.tell(coming.burst, verdict)
        if verdict == "kept":
            self.kept_at[self.live.index(coming.number)] = time
        self.handed_in = coming
        self.give()

    def skip_to_the_old(self, now):
        """Skips to the last one of those that have been held for long."""
        old = [index for index, kept in self.kept_at.items() if index >= self.live.expected and kept + self.wait < now]
        if old:
            self.live.skip(self.live.number(max(old)))
            self.give()
        self.kept_at = {index: kept for index, kept in self.kept_at.items() if index >= self.live.expected}

    def give(self):
        for frame in self.live.gives():
            self.reading.give(GivenFrame(self.index, self.handed_in.time, frame, self.handed_in))

    def close(self):
        """What there is left to give is given, and counted among what was counted before."""
        self.live.close()
        self.give()
        self.earlier.update(self.live.counts())

    def end_waiting(self):
        self.pass_on(math.inf)
        if self.until is not None:
            self.end_beginning()

    def finish(self):
        if self.live is not None:
            self.close()
            self.live = None

    def counts(self):
        """What was counted since the capture began."""
        now = self.live.counts() if self.live is not None else {}
        names = "kept late repeat beyond lost frames skipped".split()
        return {name: self.earlier[name] + now.get(name, 0) for name in names}


class CaptureReading:
    """What comes of the records of a capture, one after another."""

    def __init__(self, capture_map, settings):
        self.settings, self.map = settings, capture_map
        # A lane asks for these of a trace.
        self.sids, self.flows, self.inputs = capture_map.sids, capture_map.flows, [[]] * CHANNELS
        self.lanes = {channel: Lane(channel, self) for channel in capture_map.channels}
        self.channel_of = {channel_id: channel for channel, channel_id in capture_map.channels.items()}
        self.captured = [
            CapturedFlow(index, flow, capture_map.channels_of(index), self) for index, flow in enumerate(capture_map.flows)
        ]
        self.frames, self.requests = [], []
        self.passed, self.other_types = collections.Counter(), collections.Counter()
        self.bursts, self.above_grant, self.sequences = collections.Counter(), collections.Counter(), collections.Counter()
        self.records, self.earlier_times, self.last_time = 0, 0, 0

    def take(self, record):
        self.records += 1
        self.earlier_times += record.nanoseconds < self.last_time
        self.last_time = record.nanoseconds
        burst = burst_in(record)
        reason = self.reason_to_pass_over(burst) if isinstance(burst, CapturedBurst) else burst
        if reason in (UNKNOWN_CHANNEL, UNKNOWN_SID):
            self.tell(burst, reason)
        if reason is None:
            self.take_burst(record.nanoseconds, burst)
        else:
            self.passed[reason] += 1
            if reason == OTHER_TYPE:
                self.other_types[record.bytes[1]] += 1

    def reason_to_pass_over(self, burst):
        if burst.channel not in self.channel_of:
            return UNKNOWN_CHANNEL
        return None if (self.channel_of[burst.channel], burst.sid) in self.sids else UNKNOWN_SID

    def take_burst(self, time, burst):
        channel = self.channel_of[burst.channel]
        self.bursts[channel] += 1
        self.above_grant[channel] += exceeds_grant(burst)
        coming = Coming(time, channel, burst, header(burst.bytes).number)
        if self.would_admit(coming):
            self.tell(burst, WAITS)
            self.captured[self.sids[channel, burst.sid]].come(coming)
        else:
            self.tell(burst, self.hand_to_lane(coming))

    def would_admit(self, coming):
        """Whether its lane will admit the burst: it answers by the burst alone."""
        lane = Lane(coming.channel, self)
        return [lane.take(one) for one in inputs_of(coming)][-1] == lane.ADMITTED

    def hand_to_lane(self, coming):
        lane = self.lanes[coming.channel]
        return [lane.take(one) for one in inputs_of(coming)][-1]

    def admit(self, flow, coming):
        self.hand_to_lane(coming)
        head = header(coming.burst.bytes)
        if head.request and head.cluster < self.flows[flow].clusters:
            request = coming.time, coming.channel, coming.burst.sid, flow, head.cluster, head.request
            self.requests.append(GivenRequest(*request))

    def tell(self, burst, fate):
        """What became of a burst: why it is of no flow, the number of its refusal, that it waits, or
        what became of its segment."""

    def give(self, given):
        self.sequences[given.flow, sequence_of(given.frame)] += 1
        self.frames.append(given)

    def finish(self):
        for flow in self.captured:
            flow.end_waiting()
        for flow in self.captured:
            flow.finish()


def inputs_of(coming):
    check = ends_with_header_sequence(coming.burst.bytes[:8])
    return Grant(0, coming.burst.sid, grant_bytes(coming.burst)), Burst(0, check, coming.burst.bytes)


def read_capture(map_text, data, settings=Settings(), begin=CaptureReading):
    """What comes of a file with a map, and the file's fault or None. A faulty map is raised."""
    reading = begin(read_map(map_text), settings)
    try:
        for record in records_of(data):
            reading.take(record)
    except CaptureFault as fault:
        return reading, str(fault)
    reading.finish()
    return reading, None
