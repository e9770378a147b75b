"""A plain reading of `segrx capture --compare`: the frames that are joined here beside those that the
analyser joined itself, packets of type 80.

Of each flow, each side has a list of frames that wait for their equal. A frame comes of one side:
if one that waits on the other side has the same bytes, the first such one is its equal; what waits
before that one, and all that waits on its own side, has none. Otherwise it waits itself; of more
than 1,024 that wait then on its side the first has none. What waits at the end has none either, nor
has a frame that is longer than a MAC frame can be.

Of each frame that is listed as only the analyser's the reason is told: the first of the bursts that
its packet names, of the first 16, that isn't known to be kept, and what was told last of it, once
all is done that the record brought by which the frame came to be listed. The last 32,768 things that
were told of bursts are known, and a burst was kept if one of them says so, whatever was told later.
"""

import collections
import itertools

from shared.plain_capture import UNKNOWN_CHANNEL, UNKNOWN_SID, UPSTREAM_FRAME, WAITS, CaptureReading
from shared.plain_packets import BURST_INFO_TLV, CHANNEL_TLV, SID_TLV, XRA, last_value, packet_in, tlvs_in
from shared.plain_receiver import Lane

ANALYSER, HERE = "only the analyser's", "only here"
LONGEST_WAIT, LONGEST_FRAME = 1024, 6 + 65535
STATUS = 5
DIFFER, NONE_COMPARED = "segrx: the frames differ from the analyser's", "segrx: no frame was compared"
# So many frames that only one side has are listed of each side, with so many bytes of each.
MOST_LISTED, FIRST_BYTES = 100, 16

# So many bursts of a frame are looked at, and so many things that were told of bursts are kept.
MOST_BURSTS, MOST_TOLD = 16, 32768
INNER_ID_TLV = 1  # the number of a burst within TLV 14
# What became of a burst: the word for it, and what people read of it.
KEPT = "kept"
FATES = {
    UNKNOWN_CHANNEL: ("unknown_channel", "is of no channel of the map"),
    UNKNOWN_SID: ("unknown_sid", "is of no flow of the map"),
    WAITS: ("waits", "waits"),
    KEPT: (KEPT, "was kept"),
    "late": ("late", "came late"),
    "repeat": ("repeat", "came again"),
    "beyond": ("beyond", "was beyond the window"),
    Lane.NO_GRANT: ("no_grant", "was refused: no_grant"),
    Lane.TOO_LONG: ("too_long", "was refused: too_long"),
    Lane.BAD_CHECK: ("bad_check", "was refused: bad_check"),
    Lane.TOO_SHORT: ("too_short", "was refused: too_short"),
    Lane.POINTER_PAST: ("pointer_past_the_end", "was refused: pointer_past_the_end"),
}
NEVER_CAME, NOT_SEEN = ("never_came", "never came"), ("not_seen_lately", "wasn't seen lately")
UNNAMED, ALL_KEPT = ("unnamed", "its bursts aren't named"), (KEPT, "its bursts were kept")

RecordedFrame = collections.namedtuple("RecordedFrame", "time channel sid frame bursts")
WaitingFrame = collections.namedtuple("WaitingFrame", "time frame bursts")
Reason = collections.namedtuple("Reason", "word text burst")


def number_in(value, most=4):
    return int.from_bytes(value, "big") if value is not None and 1 <= len(value) <= most else None


def named_bursts(tlvs):
    """The numbers of the first bursts that TLVs name."""
    inner = [tlvs_in(value) for kind, value in tlvs if kind == BURST_INFO_TLV]
    ids = [number_in(last_value(one, INNER_ID_TLV), 8) for one in inner if one is not None]
    return [one for one in ids if one is not None][:MOST_BURSTS]


def recorded_frame(record):
    """The frame that an analyser joined itself, if a record holds one, or None."""
    if record.link_type != XRA or len(record.bytes) < record.original:
        return None
    packet = packet_in(record.bytes)
    if packet is None or packet.kind != UPSTREAM_FRAME:
        return None
    channel, sid = (number_in(last_value(packet.tlvs, kind)) for kind in (CHANNEL_TLV, SID_TLV))
    if channel is None or sid is None:
        return None
    return RecordedFrame(record.nanoseconds, channel, sid, packet.payload, named_bursts(packet.tlvs))


class Comparison:
    """What came of the two sides of each flow."""

    def __init__(self, flows):
        self.waiting = [{ANALYSER: [], HERE: []} for _ in range(flows)]
        self.both, self.lonely = collections.Counter(), collections.Counter()
        self.strangers = 0  # frames of the analyser's of no flow of the map
        self.listed = {ANALYSER: [], HERE: []}

    def take(self, side, flow, time, frame, bursts=()):
        waiting, other = self.waiting[flow], HERE if side == ANALYSER else ANALYSER
        equal = (place for place, one in enumerate(waiting[other]) if one.frame == frame and len(frame) <= LONGEST_FRAME)
        place = next(equal, None)
        if place is None:
            waiting[side].append(WaitingFrame(time, frame, bursts))
            self.give_up(side, flow, len(waiting[side]) - LONGEST_WAIT)
            return
        self.both[flow] += 1
        self.give_up(other, flow, place)
        del waiting[other][0]
        self.give_up(side, flow, len(waiting[side]))

    def give_up(self, side, flow, count):
        """The first of what waits has no equal."""
        for _ in range(count):
            one = self.waiting[flow][side].pop(0)
            self.lonely[side, flow] += 1
            if len(self.listed[side]) < MOST_LISTED:
                self.listed[side].append((flow, one))

    def finish(self):
        for flow, waiting in enumerate(self.waiting):
            for side in (ANALYSER, HERE):
                self.give_up(side, flow, len(waiting[side]))

    def fault(self):
        """What is said at the end, or None where both sides have the same frames."""
        if self.lonely:
            return DIFFER
        return None if self.both else NONE_COMPARED


class ComparedReading(CaptureReading):
    """What comes of the records of a capture, and how its frames compare with the analyser's."""

    def __init__(self, capture_map, settings, is_selected):
        super().__init__(capture_map, settings)
        self.is_selected, self.comparison = is_selected, Comparison(len(capture_map.flows))
        # What was told of bursts, by their numbers, and the reasons of the frames that are listed.
        self.told, self.reasons = collections.deque(maxlen=MOST_TOLD), []
        # Behind how many records each frame was joined.
        self.joined_behind = []

    def take(self, record):
        found = recorded_frame(record)
        channel = None if found is None else self.channel_of.get(found.channel)
        flow = None if channel is None else self.sids.get((channel, found.sid))
        if flow is not None and self.is_selected(flow):
            self.comparison.take(ANALYSER, flow, found.time, found.frame, found.bursts)
        self.comparison.strangers += found is not None and flow is None
        super().take(record)
        self.explain()

    def tell(self, burst, fate):
        if burst.burst_id is not None:
            self.told.append((burst.burst_id, fate))

    def reason_of(self, bursts):
        """Why a frame is missing that came of these bursts, by what was told until now."""
        fates = dict(self.told) | {burst: fate for burst, fate in self.told if fate == KEPT}
        unknown = NOT_SEEN if len(self.told) == MOST_TOLD else NEVER_CAME
        for burst in bursts:
            word, text = FATES[fates[burst]] if burst in fates else unknown
            if word != KEPT:
                return Reason(word, f"burst {burst} {text}", burst)
        return Reason(*(ALL_KEPT if bursts else UNNAMED), None)

    def explain(self):
        """The frames that are listed and have no reason yet get theirs."""
        for _, one in self.comparison.listed[ANALYSER][len(self.reasons) :]:
            self.reasons.append(self.reason_of(one.bursts))

    def finish(self):
        for flow in self.captured:
            flow.end_waiting()
        self.explain()
        for flow in self.captured:
            flow.finish()
        self.explain()

    def finish_comparison(self):
        """Nothing more is compared."""
        self.comparison.finish()
        self.explain()

    def listed(self, side):
        """The frames that are listed of a side, each with its flow and its reason, if it has one."""
        reasons = self.reasons if side == ANALYSER else itertools.repeat(None)
        return [(flow, one, reason) for (flow, one), reason in zip(self.comparison.listed[side], reasons)]

    def give(self, given):
        super().give(given)
        self.joined_behind.append(self.records)
        if self.is_selected(given.flow):
            self.comparison.take(HERE, given.flow, given.time, given.frame)


def compared_flows(reading):
    """Of each flow of which a frame was compared its index, its SFID and its counts."""
    comparison = reading.comparison
    for index, flow in enumerate(reading.captured):
        counts = comparison.both[index], comparison.lonely[ANALYSER, index], comparison.lonely[HERE, index]
        if any(counts):
            yield index, flow.setup.sfid, *counts


def seconds(time):
    return f"{time // 10**9}.{time % 10**9:09}"


def comparison_lines(reading):
    """The lines of a comparison, behind those of the summary."""
    comparison = reading.comparison
    yield "comparison with the analyser's frames"
    for index, sfid, both, analyser, here in compared_flows(reading):
        yield f"  flow {index} (SFID {sfid}): {both} in both, {analyser} {ANALYSER}, {here} {HERE}"
    for side in (ANALYSER, HERE):
        for flow, one, reason in reading.listed(side):
            why = "" if reason is None else f"; {reason.text}"
            yield f"  {side}: flow {flow}, at {seconds(one.time)}, {len(one.frame)} bytes: {one.frame[:FIRST_BYTES].hex()}{why}"
    if comparison.strangers:
        yield f"  the analyser's of no flow of the map: {comparison.strangers}"


def comparison_report(reading):
    """The lines of a comparison for programs, behind those of the report."""
    comparison = reading.comparison
    for index, _, both, analyser, here in compared_flows(reading):
        yield f"compared {index} both {both} analyser {analyser} here {here}"
    for side, words in ((ANALYSER, "only analyser"), (HERE, "only here")):
        for flow, one, reason in reading.listed(side):
            first = one.frame[:FIRST_BYTES].hex() or "-"
            why = "" if reason is None else f" {reason.word} {'-' if reason.burst is None else reason.burst}"
            yield f"{words} {flow} {one.time} {len(one.frame)} {first}{why}"
    yield f"comparison whole strangers {comparison.strangers}"


def frame_as_json(reading, flow, one, reason):
    why = {} if reason is None else {"why": {"burst": reason.burst, "reason": reason.word}}
    return {
        "flow": flow,
        "sfid": reading.captured[flow].setup.sfid,
        "seconds": one.time // 10**9,
        "nanoseconds": one.time % 10**9,
        "bytes": len(one.frame),
        "first": one.frame[:FIRST_BYTES].hex(),
        **why,
    }


def comparison_as_json(reading):
    """How frames compare, as the JSON of a reading has it."""
    comparison, names = reading.comparison, ["flow", "sfid", "both", "only_analyser", "only_here"]
    listed = {side: [frame_as_json(reading, *frame) for frame in reading.listed(side)] for side in (ANALYSER, HERE)}
    return {
        "flows": [dict(zip(names, counts)) for counts in compared_flows(reading)],
        "only_analyser": listed[ANALYSER],
        "only_here": listed[HERE],
        "strangers": comparison.strangers,
        "whole": True,
    }
