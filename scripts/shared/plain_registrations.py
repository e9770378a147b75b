"""A plain reading of what modems are told of their service flows, as docs/FORMATS.md says it: of
the parts of the messages REG-RSP-MP and DBC-REQ in a recording of the downstream, of the messages
that they make, and of the SIDs in these."""

import collections

from shared.check_sequences import ends_with_frame_sequence, ends_with_header_sequence
from shared.plain_packets import CUT_SHORT, MALFORMED, OTHER_LINK_TYPE, OTHER_TYPE, XRA, last_value, packet_in, tlvs_in

DOWNSTREAM = (1, 8, 11)
MANAGEMENT, REG_RSP_MP, DBC_REQ = 0xC2, 45, 36
UPSTREAM_FLOW, FLOW_SIDS, WITHIN = 24, 47, 2
ADD, DELETE = 1, 2
LONGEST_MESSAGE, MOST_UNDER_WAY = 65536, 256
# Why a record has no part of a message, beside that it is cut short, malformed or of another type.
OTHER_FRAME, DAMAGED, OTHER_MESSAGE = "other frame", "damaged", "other message"
# Why a part isn't taken.
NO_BEGINNING = "a part of a message whose first part didn't come"
OUT_OF_TURN = "a part that isn't the next one"
TOO_LONG, TOO_MANY = "a message of more than 64 KiB", "more than 256 unfinished messages"

# A message's name is its type with what tells it from others: SID and response, or transaction.
Part = collections.namedtuple("Part", "modem name of number tlvs")
Message = collections.namedtuple("Message", "modem name tlvs")
ToldFlow = collections.namedtuple("ToldFlow", "reference sfid sid policy")
ToldSid = collections.namedtuple("ToldSid", "sfid cluster channel sid action")


def part_in(record):
    """The part of a message in a record, or why there is none."""
    if record.link_type != XRA:
        return OTHER_LINK_TYPE
    if len(record.bytes) < record.original:
        return CUT_SHORT
    packet = packet_in(record.bytes)
    if packet is None:
        return MALFORMED
    return part_of(packet.payload) if packet.kind in DOWNSTREAM else OTHER_TYPE


def part_of(frame):
    if frame[:1] != bytes([MANAGEMENT]):
        return OTHER_FRAME
    if len(frame) < 10 or len(frame) != 6 + int.from_bytes(frame[2:4], "big"):
        return DAMAGED
    if not ends_with_header_sequence(frame[:6]) or not ends_with_frame_sequence(frame[6:]):
        return DAMAGED
    message = frame[6:-4]
    if len(message) < 20 or len(message) != 14 + int.from_bytes(message[12:14], "big"):
        return MALFORMED
    modem, kind, body = message[:6], message[18], message[20:]
    if kind not in (REG_RSP_MP, DBC_REQ):
        return OTHER_MESSAGE
    named = 3 if kind == REG_RSP_MP else 2
    if len(body) < named + 2 or not 1 <= body[named + 1] <= body[named]:
        return MALFORMED
    return Part(modem, (kind, body[:named]), body[named], body[named + 1], body[named + 2 :])


class Unfinished:
    """The messages that are under way, at most one of each modem, as a list of their parts."""

    def __init__(self):
        self.parts = {}

    def take(self, part):
        """Takes a part. The message where this was its last one, why it isn't taken, or None."""
        held = [] if part.number == 1 else self.parts.get(part.modem)
        if held is None:
            return NO_BEGINNING
        if held and (held[-1].name, held[-1].of, held[-1].number + 1) != (part.name, part.of, part.number):
            return OUT_OF_TURN
        parts = [*held, part]
        tlvs = b"".join(one.tlvs for one in parts)
        if len(tlvs) > LONGEST_MESSAGE:
            return TOO_LONG
        if part.number < part.of:
            if part.modem not in self.parts and len(self.parts) >= MOST_UNDER_WAY:
                return TOO_MANY
            self.parts[part.modem] = parts
            return None
        self.parts.pop(part.modem, None)
        return Message(part.modem, part.name, tlvs)


class Malformed(Exception):
    """A TLV overruns what it stands in, a number has another length than it has, one that has to be
    there isn't, or an action is neither 1 nor 2."""


def whole_tlvs(data):
    tlvs = tlvs_in(data)
    if tlvs is None:
        raise Malformed
    return tlvs


def number_if_there(tlvs, kind, size):
    value = last_value(tlvs, kind)
    if value is not None and len(value) != size:
        raise Malformed
    return None if value is None else int.from_bytes(value, "big")


def number_at(tlvs, kind, size):
    number = number_if_there(tlvs, kind, size)
    if number is None:
        raise Malformed
    return number


def told_flow(value):
    tlvs = whole_tlvs(value)
    return ToldFlow(*(number_if_there(tlvs, kind, size) for kind, size in ((1, 2), (2, 4), (3, 2), (16, 4))))


def told_sids(value):
    """What a TLV 47 tells: of each cluster of a flow the SID of each channel."""
    flow = whole_tlvs(value)
    sfid = number_at(flow, 1, 4)
    for in_flow, of_cluster in flow:
        if in_flow == WITHIN:
            cluster = whole_tlvs(of_cluster)
            cluster_id = number_at(cluster, 1, 1)
            for in_cluster, of_channel in cluster:
                if in_cluster == WITHIN:
                    channel = whole_tlvs(of_channel)
                    told = (number_at(channel, kind, size) for kind, size in ((1, 1), (2, 2), (3, 1)))
                    yield ToldSid(sfid, cluster_id, *told)


def told_by(tlvs):
    """What the TLVs of a message tell, one after another, or None where one is malformed."""
    told = []
    try:
        for kind, value in whole_tlvs(tlvs):
            if kind == UPSTREAM_FLOW:
                told.append(told_flow(value))
            elif kind == FLOW_SIDS:
                told += told_sids(value)
    except Malformed:
        return None
    if any(isinstance(one, ToldSid) and one.action not in (ADD, DELETE) for one in told):
        return None
    return told
