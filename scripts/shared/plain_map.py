"""A plain reading of maps of captures, as docs/FORMATS.md says them: of the text of a map, and of
the map that `segrx map` makes of the registrations in a capture.

A flow has a line once a SID of it was added, in the order in which this was told first; a channel
is numbered in the order in which it was named first. What was added stays, also where it is deleted
later, since the map is one for the whole capture: a `sid` line says what its bursts are, whenever
they come. Where a SID of a channel is added to a second flow, the first one keeps it. Messages that
don't let a modem in tell nothing.
"""

import collections

from shared.plain_packets import records_of
from shared.plain_receiver import SID, UNITS_32, value_of, worded_lines
from shared.plain_registrations import ADD, REG_RSP_MP, Message, Part, ToldSid, Unfinished, part_in, told_by

CHANNELS, MOST_FLOWS, MOST_CLUSTERS = 16, 16384, 8
CHANNEL, WINDOW, CLUSTERS = range(CHANNELS), range(1, 4097), range(1, MOST_CLUSTERS + 1)
AUTO = "auto"
USUAL_WINDOW = 1024  # no registration says it
FORMS = {
    b"flow": [UNITS_32, AUTO, WINDOW, CLUSTERS],
    b"channel": [CHANNEL, UNITS_32],
    b"sid": [CHANNEL, SID, range(MOST_FLOWS)],
}
# Of several faults of a line the first of these is told.
UNKNOWN_LINE, FIELD_COUNT, BAD_NUMBER = "unknown line", "wrong number of fields", "bad number"
UNKNOWN_CHANNEL, UNKNOWN_FLOW, TOO_MANY_FLOWS = "unknown channel", "unknown flow", "too many flows"
SAME_FLOW, SAME_CHANNEL, SAME_SID = "flow given before", "channel given before", "sid given before"
FAULTS = [
    *[UNKNOWN_LINE, FIELD_COUNT, BAD_NUMBER, UNKNOWN_CHANNEL, UNKNOWN_FLOW, TOO_MANY_FLOWS],
    *[SAME_FLOW, SAME_CHANNEL, SAME_SID],
]

# The first number is AUTO where it is the least of those that come first.
MapFlow = collections.namedtuple("MapFlow", "sfid first window clusters")


class MapFault(Exception):
    """The first faulty line of a map."""


class CaptureMap:
    """What the lines of a map say."""

    def __init__(self):
        self.flows = []
        self.channels = {}  # the upstream channel id of a channel
        self.sids = {}  # the flow of a channel and a SID

    def channels_of(self, flow):
        return sorted({channel for (channel, _), other in self.sids.items() if other == flow})

    def channel_of(self, channel_id):
        """The channel that this upstream channel is, or None."""
        return next((channel for channel, other in self.channels.items() if other == channel_id), None)

    def lines(self):
        for flow in self.flows:
            yield f"flow {' '.join(map(str, flow))}"
        for channel, channel_id in self.channels.items():
            yield f"channel {channel} {channel_id}"
        for (channel, sid), flow in self.sids.items():
            yield f"sid {channel} {sid} {flow}"

    def add(self, kind, values):
        if kind == b"flow":
            self.flows.append(MapFlow(*values))
        elif kind == b"channel":
            self.channels[values[0]] = values[1]
        else:
            self.sids[values[0], values[1]] = values[2]

    def fault_of(self, kind, values):
        """The first fault of a line whose fields are of their forms, or None."""
        if kind == b"flow":
            if len(self.flows) == MOST_FLOWS:
                return TOO_MANY_FLOWS
            return SAME_FLOW if any(flow.sfid == values[0] for flow in self.flows) else None
        if kind == b"channel":
            return SAME_CHANNEL if values[0] in self.channels or values[1] in self.channels.values() else None
        if values[0] not in self.channels:
            return UNKNOWN_CHANNEL
        if values[2] >= len(self.flows):
            return UNKNOWN_FLOW
        return SAME_SID if (values[0], values[1]) in self.sids else None


def value_in_map(form, word):
    """What a word says, or None where it isn't of its form: a first number is a sequence number or
    `auto`."""
    if form == AUTO:
        return AUTO if word == b"auto" else value_of(range(8192), word)
    return value_of(form, word)


def fault_in_line(read, kind, words):
    """The values of a line, and its first fault or None."""
    if kind not in FORMS:
        return [], UNKNOWN_LINE
    if len(words) != len(FORMS[kind]):
        return [], FIELD_COUNT
    values = [value_in_map(*pair) for pair in zip(FORMS[kind], words)]
    return values, BAD_NUMBER if None in values else read.fault_of(kind, values)


def read_map(text):
    """The map that a text is. The first faulty line is raised."""
    read = CaptureMap()
    for place, kind, words in worded_lines(text):
        values, fault = fault_in_line(read, kind, words)
        if fault is not None:
            raise MapFault(f"line {place}: {fault}")
        read.add(kind, values)
    return read


def messages_in(records):
    """The messages that are complete, with the place and time of the record of the last part."""
    unfinished = Unfinished()
    for place, record in enumerate(records):
        part = part_in(record)
        message = unfinished.take(part) if isinstance(part, Part) else None
        if isinstance(message, Message):
            yield place, record.nanoseconds, message


def is_let_in(message):
    """Whether the modem does what the message tells: one whose registration is refused doesn't."""
    kind, named = message.name
    return kind != REG_RSP_MP or named[2] == 0


def sids_told(message):
    """What a message tells of SIDs, nothing where a TLV is malformed."""
    return [told for told in told_by(message.tlvs) or [] if isinstance(told, ToldSid)]


def sids_added(records):
    """The SIDs that modems are told to add, in the order in which they are told."""
    for _, _, message in messages_in(records):
        if is_let_in(message):
            yield from (told for told in sids_told(message) if told.action == ADD)


def registered_map(records):
    """The map that the registrations among these records give. What a map can't say is left out: a
    seventeenth channel, a cluster above 7, a SID above 16,383 and a flow above the most."""
    made, places = CaptureMap(), {}
    for told in sids_added(records):
        channel = made.channel_of(told.channel)
        has_room = (channel is not None or len(made.channels) < CHANNELS) and (told.sfid in places or len(places) < MOST_FLOWS)
        if told.cluster >= MOST_CLUSTERS or told.sid not in SID or not has_room:
            continue
        if channel is None:
            channel = len(made.channels)
            made.channels[channel] = told.channel
        flow = places.get(told.sfid, len(places))
        if made.sids.get((channel, told.sid), flow) != flow:
            continue
        if told.sfid not in places:
            places[told.sfid] = flow
            made.flows.append(MapFlow(told.sfid, AUTO, USUAL_WINDOW, 1))
        made.sids[channel, told.sid] = flow
        clusters = max(made.flows[flow].clusters, told.cluster + 1)
        made.flows[flow] = made.flows[flow]._replace(clusters=clusters)
    return made


def map_of(data):
    """The lines of the map that the registrations in a file give."""
    return list(registered_map(records_of(data)).lines())


def lines_without_comments(text):
    """The lines of a map without those that are skipped, with single blanks."""
    return [b" ".join([kind, *words]).decode() for _, kind, words in worded_lines(text)]
