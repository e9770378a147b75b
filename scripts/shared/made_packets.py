"""Packets of link type 273 made by chance: those of bursts, recorded well or spoiled in one way,
and those of other types."""

from shared.check_sequences import header_sequence
from shared.plain_packets import BURST_ID_TLV, BURST_INFO_TLV, CHANNEL_TLV, GRANT_TLV, SEGMENT_HEADER_TLV, SID_TLV
from shared.plain_packets import MALFORMED, NO_CHANNEL_OR_SID, NO_SEGMENT_HEADER, OFDMA_DATA_BURST, OTHER_TYPE, TDMA_BURST
from shared.plain_capture import UNKNOWN_CHANNEL, UNKNOWN_SID, UPSTREAM_FRAME
from shared.written_captures import number, short_number, tlv, xra_packet

BAD_CHECK, POINTER_PAST, GRANT_RANGE = "bad check", "pointer past the end", "grant out of range"
USAGE_TLV = 12  # the IUC of a burst
INNER_ID_TLV = 1  # the number of a burst within TLV 14
# Types that are none of a burst's, of both directions, among them ones that nobody uses.
OTHER_TYPES = [0, 1, 2, 8, 11, 64, 66, 67, 68, 69, 70, 71, 73, UPSTREAM_FRAME, 81, 127, 0xC1]
# What no map of a made capture says.
STRANGE_CHANNELS = [b"\xfe", b"\x01\xfe", b"\xfe\x00\x00\x00"]
STRANGE_SIDS = [b"\x00", b"\x3f\xff", b"\x40\x01", b"\x01\x00\x01"]


def burst_info(rng):
    """A TLV with the numbers of another burst in it."""
    kinds = CHANNEL_TLV, SID_TLV, USAGE_TLV, BURST_ID_TLV
    return tlv(BURST_INFO_TLV, b"".join(tlv(kind, rng.randbytes(2)) for kind in kinds))


def some_grant(rng, size):
    """The bits of a grant, in most cases of so many bytes or more. What stands above the low 24
    bits means nothing."""
    bits = rng.choice([8 * size, 8 * size, 8 * size + rng.randrange(900), 8 * max(0, size - rng.randrange(20)), 0])
    return bits + (rng.randrange(256) << 24 if rng.random() < 0.1 else 0)


def values_of(rng, channel_id, sid, size):
    """What the TLVs of a burst of so many bytes say, by their types."""
    values = {SEGMENT_HEADER_TLV: rng.choice([b"\x01", b"\x01", b"\x01", b"\x00\x01", b"\xff"])}
    values[CHANNEL_TLV] = short_number(channel_id)
    values[SID_TLV] = rng.choice([number(sid, 2), number(sid, 2), number(sid, 4), short_number(sid)])
    if rng.random() < 0.7:
        values[BURST_ID_TLV] = rng.choice([rng.randbytes(8), rng.randbytes(1), rng.randbytes(4)])
    if rng.random() < 0.8:
        values[GRANT_TLV] = number(some_grant(rng, size), 4)
    return values


def tlvs_of(rng, values):
    """The TLVs of these values in any order, among others. Of one that is twice the last counts."""
    tlvs = [tlv(kind, value) for kind, value in values.items()]
    if rng.random() < 0.5:
        tlvs += [tlv(USAGE_TLV, rng.randbytes(1)), burst_info(rng)]
    rng.shuffle(tlvs)
    if rng.random() < 0.05:
        tlvs.insert(0, tlv(rng.choice(list(values)), rng.randbytes(rng.randrange(1, 5))))
    return b"".join(tlvs)


def with_bad_number_before(rng, packet):
    """A packet with a TLV before all others that is no number. Where it stands once more that
    doesn't matter."""
    bad = tlv(rng.choice([CHANNEL_TLV, SID_TLV]), rng.choice([b"", rng.randbytes(5), rng.randbytes(9)]))
    return packet[:2] + number(int.from_bytes(packet[2:4], "big") + len(bad), 2) + bad + packet[4:]


def packet_of(rng, values, segment, kind=None):
    kind = rng.choice([TDMA_BURST, OFDMA_DATA_BURST]) if kind is None else kind
    return xra_packet(kind, tlvs_of(rng, values), segment, rng.randrange(3))


def good_packet(rng, channel_id, sid, segment):
    return packet_of(rng, values_of(rng, channel_id, sid, len(segment)), segment)


def malformed_packet(rng, values, segment):
    """A packet that spells none, or whose burst has a number that is none, or too few bytes."""
    tlvs = b"".join(tlv(*pair) for pair in values.items())
    how = rng.choice(["short", "number", "payload", "overrun", "cut"])
    if how == "short":
        return rng.choice([b"", b"\x01", b"\x01\x41\x00"])
    if how == "number":
        kind = rng.choice([CHANNEL_TLV, SID_TLV, SEGMENT_HEADER_TLV, GRANT_TLV])
        return xra_packet(TDMA_BURST, tlvs + tlv(kind, rng.choice([b"", bytes(4) + b"\x01"])), segment)
    if how == "payload":
        return packet_of(rng, values, segment[: rng.randrange(8)])
    if how == "overrun":
        return xra_packet(OFDMA_DATA_BURST, tlvs + bytes([USAGE_TLV, 5]) + bytes(rng.randrange(5)), segment)
    return xra_packet(TDMA_BURST, tlvs, b"")[:-1]


def with_flipped_bit(rng, segment):
    place = rng.randrange(8)
    return segment[:place] + bytes([segment[place] ^ 1 << rng.randrange(8)]) + segment[place + 1 :]


def with_pointer_past(rng, segment):
    words = number(0x8000 | min(0x3FFF, len(segment) - 8 + rng.randrange(3)), 2) + segment[2:6]
    return words + header_sequence(words) + segment[8:]


def spoiled_packet(rng, what, channel_id, sid, segment):
    """A packet whose burst is spoiled in this way."""
    if what == BAD_CHECK:
        segment = with_flipped_bit(rng, segment)
    elif what == POINTER_PAST:
        segment = with_pointer_past(rng, segment)
    values = values_of(rng, channel_id, sid, len(segment))
    if what == MALFORMED:
        return malformed_packet(rng, values, segment)
    if what == OTHER_TYPE:
        return packet_of(rng, values, segment, rng.choice(OTHER_TYPES))
    if what == NO_SEGMENT_HEADER:
        values[SEGMENT_HEADER_TLV] = rng.choice([b"\x00", bytes(4)])
    elif what == NO_CHANNEL_OR_SID:
        del values[rng.choice([CHANNEL_TLV, SID_TLV])]
    elif what == UNKNOWN_CHANNEL:
        values[CHANNEL_TLV] = rng.choice(STRANGE_CHANNELS)
    elif what == UNKNOWN_SID:
        values[SID_TLV] = rng.choice(STRANGE_SIDS)
    elif what == GRANT_RANGE:
        values[GRANT_TLV] = number(rng.choice([8 * 65536, 8 * 65536 + 7, (1 << 24) - 1]), rng.choice([3, 4]))
    return packet_of(rng, values, segment)


def without_segment_header_tlv(rng, channel_id, sid, payload):
    """A burst of a flow without segment headers."""
    values = values_of(rng, channel_id, sid, len(payload))
    del values[SEGMENT_HEADER_TLV]
    return packet_of(rng, values, payload)


def named_burst(rng, burst_id):
    """A TLV that names a burst by its number, among other TLVs. Of a number twice the last counts."""
    inner = [tlv(INNER_ID_TLV, rng.choice([short_number(burst_id), number(burst_id, 8)])), tlv(USAGE_TLV, rng.randbytes(1))]
    if rng.random() < 0.1:
        inner.insert(0, tlv(INNER_ID_TLV, rng.randbytes(rng.choice([0, 2, 9]))))
    return tlv(BURST_INFO_TLV, b"".join(inner))


def frame_packet(rng, channel_id, sid, frame, bursts=()):
    """A frame as an analyser that joins segments itself records it, and of which these bursts are
    named, among TLVs that name none."""
    tlvs = tlv(CHANNEL_TLV, short_number(channel_id)) + tlv(SID_TLV, number(sid, 2))
    tlvs += burst_info(rng) + b"".join(named_burst(rng, one) for one in bursts) + burst_info(rng)
    if bursts and rng.random() < 0.1:
        tlvs += tlv(BURST_INFO_TLV, b"\x01\x02\x03")
    return xra_packet(UPSTREAM_FRAME, tlvs, frame)
