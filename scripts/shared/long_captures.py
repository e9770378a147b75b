"""A capture of any length for `segrx capture`, and its map. Flows, one in most captures, send
Ethernet frames of 64 to 1,518 bytes in segments of 1,500 on four channels: one flow a segment each
100 microseconds, several in turn one each 10.
"""

import itertools
import random

from shared.check_sequences import header_sequence
from shared.long_texts import CHANNELS, segments
from shared.modem_frames import PACKET, ethernet, mac_frame
from shared.plain_packets import CHANNEL_TLV, GRANT_TLV, SEGMENT_HEADER_TLV, SID_TLV, TDMA_BURST, XRA, Record
from shared.written_captures import NANOSECONDS, number, pcap_header, pcap_record, tlv, xra_packet

SEGMENTS, SIZE = 8192, 1500
APART, APART_OF_SEVERAL = 100_000, 10_000  # nanoseconds
HEADER = 6  # bytes of a MAC frame before its Ethernet frame


def map_lines(flows=1, channels=CHANNELS):
    lines = [f"flow {flow + 1} auto 1024 1\n" for flow in range(flows)]
    lines += [f"channel {channel} {channel + 1}\n" for channel in range(channels)]
    sids = itertools.product(range(flows), range(channels))
    lines += [f"sid {channel} {sid_of(flow, channel, channels)} {flow}\n" for flow, channel in sids]
    return "".join(lines)


def sid_of(flow, channel, channels=CHANNELS):
    return flow * channels + channel + 1


def frame_of(rng, size):
    return mac_frame(PACKET, b"", ethernet(rng, size))


def frames_of(rng, length):
    """Frames of so many bytes together, of a pool of them."""
    pool = [frame_of(rng, rng.randint(64, 1518)) for _ in range(256)]
    while length > 2 * SIZE:
        one = rng.choice(pool)
        length -= len(one)
        yield one
    yield frame_of(rng, length // 2 - HEADER)
    yield frame_of(rng, length - length // 2 - HEADER)


def of_pool(sizes, rng):
    """Frames of such sizes, without end."""
    pool = [frame_of(rng, size - HEADER) for size in sizes]
    while True:
        yield rng.choice(pool)


def ordinary(rng):
    """Segments of frames of 70 to 1,524 bytes, which are cut anywhere."""
    return segments(of_pool([rng.randint(70, 1524) for _ in range(256)], rng), SIZE)


def packet_of(place, segment):
    """The packet of a burst of the one flow, on one channel after another."""
    channel = place % CHANNELS + 1
    return packet_on(channel, channel, segment)


def packet_on(channel, sid, segment):
    """The packet of a burst, with its right header check sequence."""
    words = bytes(segment[:6])
    burst = words + header_sequence(words) + bytes(segment[8:])
    values = {SEGMENT_HEADER_TLV: b"\x01", CHANNEL_TLV: number(channel, 1), SID_TLV: number(sid, 2)}
    values[GRANT_TLV] = number(8 * len(burst), 4)
    return xra_packet(TDMA_BURST, b"".join(tlv(*pair) for pair in values.items()), burst)


def packed(sent):
    """The pcap file of segments, a piece for its header and for each of them."""
    yield pcap_header(NANOSECONDS, XRA)
    for place, segment in enumerate(sent):
        packet = packet_of(place, segment)
        yield pcap_record(NANOSECONDS, Record(XRA, place * APART, len(packet), packet))


def packets_of_a_round():
    """As many packets as there are numbers. The last one ends with a frame, so they may come again
    and again."""
    cut = segments(frames_of(random.Random(20), SEGMENTS * SIZE), SIZE)
    packets = [packet_of(place, segment) for place, segment in enumerate(cut)]
    assert len(packets) == SEGMENTS
    return packets


def pieces_of_capture(size):
    """A pcap file of so many bytes or a few more, piece by piece."""
    packets, time, given = packets_of_a_round(), 0, 0
    yield pcap_header(NANOSECONDS, XRA)
    while given < size:
        records = []
        for packet in packets:
            records.append(pcap_record(NANOSECONDS, Record(XRA, time, len(packet), packet)))
            time += APART
        piece = b"".join(records)
        given += len(piece)
        yield piece


def pieces_of_flows(flows):
    """A pcap file without end, piece by piece: flows take turns, each with a segment on each
    channel."""
    sent = [ordinary(random.Random(flow)) for flow in range(flows)]
    times = itertools.count(0, APART_OF_SEVERAL)
    yield pcap_header(NANOSECONDS, XRA)
    for flow in itertools.cycle(range(flows)):
        at_once = enumerate(itertools.islice(sent[flow], CHANNELS))
        packets = [packet_on(channel + 1, sid_of(flow, channel), segment) for channel, segment in at_once]
        records = [Record(XRA, next(times), len(packet), packet) for packet in packets]
        yield b"".join(pcap_record(NANOSECONDS, record) for record in records)
