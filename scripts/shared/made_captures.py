"""Captures made by chance, with what is true of them: flows of modems as packets of link type 273
among others, in files of all forms, with the map that is to be used and the registrations that give
one.

Each burst is recorded well or spoiled in one way. What came in, what is passed over and what lanes
refuse is known before.
"""

import collections
import itertools
import math

from shared.made_packets import BAD_CHECK, GRANT_RANGE, POINTER_PAST
from shared.made_packets import frame_packet, good_packet, spoiled_packet, with_bad_number_before, without_segment_header_tlv
from shared.made_registrations import Modem, changed_sid, dealt_packets
from shared.modem_flows import SHORT_SIZES, ModemFlow, Way
from shared.odd_clocks import broken_premises_by, recorded_times, some_clock
from shared.plain_capture import MILLISECOND, UNKNOWN_CHANNEL, UNKNOWN_SID
from shared.plain_map import CHANNELS, CaptureMap
from shared.plain_packets import CUT_SHORT, MALFORMED, NO_CHANNEL_OR_SID, NO_SEGMENT_HEADER, OTHER_LINK_TYPE, OTHER_TYPE
from shared.plain_packets import XRA, Record
from shared.plain_receiver import Lane
from shared.plain_registrations import ADD, ToldSid
from shared.written_captures import Form, block, pcap_file, pcapng_file, rounded

ETHERNET = 1  # another link type
PCAP_UNITS, PCAPNG_UNITS = [10**6, 10**9], [10**6, 10**6, 10**9, 10**7, 2**30, 2**20]
OUTAGES = [20, 300, 2000, 7000, 8200, 10000]
CHANGED = 0.03  # of the SIDs
GOOD = "good"
# What becomes of a burst that isn't recorded well, and how often each is chosen.
SPOILED = {
    **{BAD_CHECK: 8, POINTER_PAST: 1, GRANT_RANGE: 1, CUT_SHORT: 2, MALFORMED: 3, OTHER_TYPE: 2, NO_SEGMENT_HEADER: 1},
    **{NO_CHANNEL_OR_SID: 1, UNKNOWN_CHANNEL: 1, UNKNOWN_SID: 1, OTHER_LINK_TYPE: 1},
}
# What a lane refuses then, of the grant and of the burst.
REFUSALS = {
    BAD_CHECK: [Lane.BAD_CHECK],
    POINTER_PAST: [Lane.POINTER_PAST],
    GRANT_RANGE: [Lane.GRANT_RANGE, Lane.NO_GRANT],
}

# A record, and what it is: GOOD, or how it was spoiled or why it is passed over; of a burst its
# flow and its arrival.
Made = collections.namedtuple("Made", "record what flow arrival", defaults=(None, None))
# How many flows, from how many segments up to how many each, on how many channels, and how many
# segments the outages of each take.
Shape = collections.namedtuple("Shape", "flows segments channels outages")


class MadeCapture:
    """A capture of flows that send in some way, with registrations or without, by this clock or by
    some. Its map says more than these: first numbers and windows.
    """

    def __init__(self, rng, is_calm, shape, clock=None):
        self.rng, self.is_calm = rng, is_calm
        channels = rng.sample(range(CHANNELS), shape.channels)
        self.way = Way(rng, channels, is_calm)
        if shape.outages:
            self.way.outages, self.way.sizes = shape.outages, SHORT_SIZES
        self.has_registrations = rng.random() < 0.7
        most = 1 << 8 if self.has_registrations else rng.choice([1 << 8, 1 << 32])
        self.channel_ids = dict(zip(channels, rng.sample(range(most - 2), len(channels))))
        self.flows = [ModemFlow(rng, index, self.way, rng.randrange(*shape.segments)) for index in range(shape.flows)]
        self.sfids = rng.sample(range(1, 1 << 32), shape.flows)
        self.next_sid = dict.fromkeys(channels, rng.randrange(1, 3000))
        self.spoils, self.clock = rng.choice([0, 0.02, 0.1]), clock or some_clock(rng)
        self.told, self.sids, self.changes = [], {}, {}
        for flow in self.flows:
            self.give_sids(flow)
        self.make()

    def new_sid(self, channel):
        self.next_sid[channel] += self.rng.randrange(1, 20)
        return self.next_sid[channel]

    def give_sids(self, flow):
        """Gives a flow a SID on each of its channels for each of its clusters, and now and then
        another one later."""
        for cluster, channel in itertools.product(range(flow.clusters), flow.channels):
            told = ToldSid(self.sfids[flow.index], cluster, self.channel_ids[channel], self.new_sid(channel), ADD)
            self.told.append(told)
            self.sids[flow.index, channel, cluster] = told.sid
            if flow.arrivals and self.rng.random() < CHANGED:
                time = self.rng.choice(flow.arrivals).time
                self.changes[flow.index, channel, cluster] = time, told, self.new_sid(channel)

    def sid_of(self, flow, arrival, cluster):
        """The SID in which a segment is sent."""
        place = flow.index, arrival.channel, cluster
        time, _, new = self.changes.get(place, (math.inf, None, None))
        return new if arrival.time >= time else self.sids[place]

    def map(self):
        made = CaptureMap()
        made.flows = [flow.map_flow(self.sfids[flow.index]) for flow in self.flows]
        made.channels = dict(self.channel_ids)
        for (flow, channel, cluster), sid in self.sids.items():
            made.sids[channel, sid] = flow
            if (flow, channel, cluster) in self.changes:
                made.sids[channel, self.changes[flow, channel, cluster][2]] = flow
        return made

    def map_text(self):
        """The text of the map, its lines in some lawful order."""
        made = list(self.map().lines())
        flows, channels, sids = ([line for line in made if line.startswith(kind)] for kind in ("flow", "channel", "sid"))
        self.rng.shuffle(channels)
        self.rng.shuffle(sids)
        lines = [*channels, *flows] if self.rng.random() < 0.5 else [*flows, "", *channels]
        return "".join(line + "\n" for line in ["# made by chance", *lines, *sids]).encode()

    def make(self):
        """Makes the records and their file."""
        made = [self.made_of(flow, arrival) for flow in self.flows for arrival in flow.arrivals]
        made += self.registrations() + self.others(len(made))
        made.sort(key=lambda one: one.record.nanoseconds)
        if not self.is_calm and len(made) > 1 and self.rng.random() < 0.2:
            place = self.rng.randrange(len(made) - 1)
            made[place : place + 2] = made[place + 1], made[place]
        times = recorded_times(self.rng, self.clock, [one.record.nanoseconds for one in made])
        self.write([one._replace(record=one.record._replace(nanoseconds=time)) for one, time in zip(made, times)])

    def made_of(self, flow, arrival):
        """A burst as it is recorded."""
        rng, cluster = self.rng, self.rng.randrange(flow.clusters)
        request = rng.choice([0, 0, 1, 7, 65535])
        segment = flow.segment(arrival.index, rng.randrange(8), request, rng.random() < 0.1)
        address = self.channel_ids[arrival.channel], self.sid_of(flow, arrival, cluster)
        what = GOOD if rng.random() >= self.spoils else rng.choices(list(SPOILED), SPOILED.values())[0]
        packet = good_packet(rng, *address, segment)
        if not self.is_calm and rng.random() < 0.02:
            packet = with_bad_number_before(rng, packet)
        if what not in (GOOD, CUT_SHORT, OTHER_LINK_TYPE):
            packet = spoiled_packet(rng, what, *address, segment)
        captured = packet[: rng.randrange(len(packet))] if what == CUT_SHORT else packet
        link_type = ETHERNET if what == OTHER_LINK_TYPE else XRA
        return Made(Record(link_type, arrival.time, len(packet), captured), what, flow, arrival)

    def others(self, count):
        """Packets that are no bursts with segment headers, a few for many that are."""
        rng, made = self.rng, []
        for _ in range(count // 50 + rng.randrange(3)):
            flow = rng.choice(self.flows)
            if not flow.arrivals or not flow.cut.frames:
                continue
            arrival, frame = rng.choice(flow.arrivals), rng.choice(flow.cut.frames)
            address = self.channel_ids[arrival.channel], self.sid_of(flow, arrival, 0)
            joined = rng.random() < 0.5
            packet = frame_packet(rng, *address, frame) if joined else without_segment_header_tlv(rng, *address, frame)
            record = Record(XRA, arrival.time, len(packet), packet)
            made.append(Made(record, OTHER_TYPE if joined else NO_SEGMENT_HEADER))
        return made

    def registrations(self):
        """What tells the modems of the SIDs of their flows: once before all, some of them once
        more, and each change at its time."""
        if not self.has_registrations:
            return []
        rng, modems, sfids = self.rng, [], list(self.sfids)
        while sfids:
            own = {sfids.pop() for _ in range(min(len(sfids), rng.choice([1, 1, 2, 3, 4])))}
            modems.append(Modem(rng, len(modems), [told for told in self.told if told.sfid in own]))
        spoils = 0 if self.is_calm else rng.choice([0, 0.1, 0.5])
        packets = list(dealt_packets(rng, [modem.refusal() for modem in modems if rng.random() < 0.2], spoils))
        packets += dealt_packets(rng, [modem.registration() for modem in modems], spoils)
        packets += dealt_packets(rng, [modem.registration() for modem in modems if rng.random() < 0.1], spoils)
        first = self.way.start - len(packets) * MILLISECOND
        made = [made_of_packet(first + place * MILLISECOND, packet) for place, packet in enumerate(packets)]
        for transaction, (time, modem, told) in enumerate(self.told_changes(modems)):
            change = modem.change(transaction % 65536, told)
            made += [made_of_packet(time - 1, packet) for packet in dealt_packets(rng, [change], spoils)]
        return made

    def told_changes(self, modems):
        """When which modem is told to change which SIDs: each by itself, or all of its flows' with
        the first of them."""
        for modem in modems:
            own = sorted((time, changed_sid(old, new)) for time, old, new in self.changes.values() if old in modem.told)
            if own and self.rng.random() < 0.5:
                own = [(own[0][0], [told for _, change in own for told in change])]
            for time, told in own:
                yield time, modem, told

    def write(self, made):
        """Writes the records into a file of some form, and notes with what times."""
        rng = self.rng
        if rng.random() < 0.5:
            form = Form(False, rng.choice(["big", "little"]), rng.choice(PCAP_UNITS))
            made = [one for one in made if one.what != OTHER_LINK_TYPE]
            self.made = [at_rounded_time(form, one) for one in made]
            self.data = pcap_file(form, XRA, [one.record for one in self.made])
            return
        self.made, parts, cut = [], [], rng.choice([len(made), len(made), rng.randrange(len(made) + 1)])
        for section in (made[:cut], made[cut:]) if cut < len(made) else (made,):
            form = Form(True, rng.choice(["big", "little"]), rng.choice(PCAPNG_UNITS))
            section = [at_rounded_time(form, one) for one in section]
            self.made += section
            parts.append(pcapng_file(form, [one.record for one in section], self.other_blocks(form, len(section))))
        self.data = b"".join(parts)

    def other_blocks(self, form, count):
        """Blocks that are passed over, by the places of the records before which they stand: no
        names, statistics of the first interface, and blocks for local use; and in a capture that
        isn't calm also simple packets and such of no sense."""
        rng = self.rng
        kinds = {4: bytes(4), 5: bytes(12), 0x80000001: rng.randbytes(rng.randrange(40))}
        if not self.is_calm:
            kinds |= {3: rng.randbytes(rng.randrange(40)), 4: rng.randbytes(9)}
        chosen = {rng.randrange(count): rng.choice(list(kinds)) for _ in range(rng.randrange(4)) if count}
        return {place: [block(form.order, kind, kinds[kind])] for place, kind in chosen.items()}

    def recorded_well(self, flow):
        """What was made of a flow's segments that were recorded well, in the order of the file."""
        return [one for one in self.made if one.flow is flow and one.what == GOOD]

    def came(self, flow):
        """The arrivals of these, with their true times."""
        return [one.arrival for one in self.recorded_well(flow)]

    def passed_over(self):
        """How many records are passed over, by the reason."""
        return collections.Counter(one.what for one in self.made if one.what != GOOD and one.what not in REFUSALS)

    def refusals(self, channel):
        """What the lane of a channel refuses, in order but for bursts that wait for their turn."""
        here = [one for one in self.made if one.what in REFUSALS and one.arrival.channel == channel]
        return [refusal for one in here for refusal in REFUSALS[one.what]]

    def bursts(self, channel):
        """How many bursts of flows come on a channel."""
        taken = [one for one in self.made if one.what == GOOD or one.what in REFUSALS]
        return sum(one.arrival.channel == channel for one in taken)

    def broken_premises(self, flow):
        times = [one.record.nanoseconds for one in self.recorded_well(flow)]
        return broken_premises_by(self.clock, flow, self.came(flow), times)

    def registered_sids(self):
        """Of each flow, by its SFID, the channels and SIDs that it ever has."""
        found = collections.defaultdict(set)
        for told in self.told:
            found[told.sfid].add((told.channel, told.sid))
        for _, old, new in self.changes.values():
            found[old.sfid].add((old.channel, new))
        return found


def made_of_packet(time, packet):
    return Made(Record(XRA, time, len(packet), packet), OTHER_TYPE)


def at_rounded_time(form, made):
    record = made.record
    return made._replace(record=record._replace(nanoseconds=rounded(form, record.nanoseconds)))


def some_shape(rng):
    """A few flows in most cases, now and then many, and now and then with outages."""
    channels = rng.choice([1, 2, 4, 4, 4, 8, 10, 10, 16])
    chance = rng.random()
    if chance < 0.1:
        return Shape(rng.choice([30, 100, 300]), (2, 9), channels, [])
    if chance < 0.3:
        return Shape(rng.choice([1, 1, 2]), (20, 150), channels, rng.choices(OUTAGES, k=rng.choice([1, 1, 2])))
    return Shape(rng.choice([1, 2, 3, 3, 5]), (2, 150), channels, [])


def some_capture(rng, is_calm=None):
    """A capture, calm or by chance. What tshark reads of a calm one is what it is."""
    return MadeCapture(rng, rng.random() < 0.7 if is_calm is None else is_calm, some_shape(rng))
