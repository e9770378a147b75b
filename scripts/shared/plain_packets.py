"""A plain reading of captures, as docs/FORMATS.md says them: of pcap and pcapng files, of the
packets of link type 273 in them, and of the bursts that such packets hold."""

import collections

XRA = 273  # the link type of an XRA analyser's packets
LONGEST_RECORD, LONGEST_BLOCK, MOST_INTERFACES = 1 << 20, 1 << 21, 4096
GREATEST_TIME = (1 << 64) - 1

Record = collections.namedtuple("Record", "link_type nanoseconds original bytes")
Packet = collections.namedtuple("Packet", "version kind tlvs payload")
CapturedBurst = collections.namedtuple("CapturedBurst", "kind channel sid grant_bits burst_id bytes")

# The magic numbers of pcap: the order of all numbers of the file, and how many nanoseconds the unit
# of a fraction has.
PCAP_MAGICS = {
    bytes.fromhex("a1b2c3d4"): ("big", 1000),
    bytes.fromhex("a1b23c4d"): ("big", 1),
    bytes.fromhex("d4c3b2a1"): ("little", 1000),
    bytes.fromhex("4d3cb2a1"): ("little", 1),
}
SECTION_HEADER, INTERFACE, PACKET_BLOCK = 0x0A0D0D0A, 1, 6
BYTE_ORDERS = {bytes.fromhex("1a2b3c4d"): "big", bytes.fromhex("4d3c2b1a"): "little"}
LEAST_BLOCKS = {SECTION_HEADER: 28, INTERFACE: 20, PACKET_BLOCK: 32}

NO_CAPTURE = "neither a pcap nor a pcapng file"
ENDS_IN_RECORD, ENDS_IN_BLOCK = "the file ends within a record", "the file ends within a block"
RECORD_TOO_LONG = "a record of more than 1 MiB"
# Why a record is passed over. The first that fits is told.
OTHER_LINK_TYPE, CUT_SHORT, MALFORMED, OTHER_TYPE = "other link type", "cut short", "malformed", "other type"
NO_SEGMENT_HEADER, NO_CHANNEL_OR_SID = "no segment header", "no channel or SID"

TDMA_BURST, OFDMA_DATA_BURST = 65, 72
CHANNEL_TLV, SID_TLV, BURST_ID_TLV, BURST_INFO_TLV, GRANT_TLV, SEGMENT_HEADER_TLV = 10, 11, 13, 14, 17, 18


class CaptureFault(Exception):
    """Why a file is not read to its end."""


def numbers(order, data, sizes):
    """Numbers of so many bytes each, end to end."""
    place, found = 0, []
    for size in sizes:
        found.append(int.from_bytes(data[place : place + size], order))
        place += size
    return found


def records_of(data):
    """The records of a file, one after another. Then its fault is raised, if it has one."""
    if not data:
        raise CaptureFault(NO_CAPTURE)
    yield from records_of_pcapng(data) if data[0] == 0x0A else records_of_pcap(data)


def records_of_pcap(data):
    if len(data) < 24:
        raise CaptureFault(ENDS_IN_RECORD)
    if data[:4] not in PCAP_MAGICS:
        raise CaptureFault(NO_CAPTURE)
    order, unit = PCAP_MAGICS[data[:4]]
    link_type = int.from_bytes(data[20:24], order)
    place = 24
    while place < len(data):
        head = data[place : place + 16]
        if len(head) < 16:
            raise CaptureFault(ENDS_IN_RECORD)
        seconds, fraction, captured, original = numbers(order, head, [4, 4, 4, 4])
        if captured > LONGEST_RECORD:
            raise CaptureFault(RECORD_TOO_LONG)
        body = data[place + 16 : place + 16 + captured]
        if len(body) < captured:
            raise CaptureFault(ENDS_IN_RECORD)
        yield Record(link_type, seconds * 10**9 + fraction * unit, original, body)
        place += 16 + captured


def records_of_pcapng(data):
    order, interfaces, place = None, [], 0
    while place < len(data):
        order, kind, body = block_at(data, place, order)
        place += len(body) + 12
        if kind == SECTION_HEADER:
            if int.from_bytes(body[4:6], order) != 1:
                raise CaptureFault("a section of an unsupported version")
            interfaces = []
        elif kind == INTERFACE:
            if len(interfaces) == MOST_INTERFACES:
                raise CaptureFault("a section with too many interfaces")
            interfaces.append(interface_of(order, body))
        elif kind == PACKET_BLOCK:
            yield record_of_block(order, interfaces, body)


def block_at(data, place, order):
    """The order of the block at this place, its type and what lies between its lengths. Blocks have
    the order of their section, of which this is that of the one before."""
    if len(data) - place < 8:
        raise CaptureFault(ENDS_IN_BLOCK)
    if int.from_bytes(data[place : place + 4], "big") == SECTION_HEADER:
        if len(data) - place < 12:
            raise CaptureFault(ENDS_IN_BLOCK)
        if data[place + 8 : place + 12] not in BYTE_ORDERS:
            raise CaptureFault("a section of no byte order")
        order = BYTE_ORDERS[data[place + 8 : place + 12]]
    elif order is None:
        raise CaptureFault(NO_CAPTURE)
    kind, total = numbers(order, data[place : place + 8], [4, 4])
    if total < LEAST_BLOCKS.get(kind, 12) or total % 4 != 0:
        raise CaptureFault("a block of a wrong length")
    if kind in LEAST_BLOCKS and total > LONGEST_BLOCK:
        raise CaptureFault("a block of more than 2 MiB")
    if len(data) - place < total:
        raise CaptureFault(ENDS_IN_BLOCK)
    if int.from_bytes(data[place + total - 4 : place + total], order) != total:
        raise CaptureFault("a block whose two lengths differ")
    return order, kind, data[place + 8 : place + total - 4]


def interface_of(order, body):
    """The link type of an interface, and how many of its units a second has."""
    resolution, place = None, 8
    while place < len(body):
        code, length = numbers(order, body[place : place + 4], [2, 2])
        after = place + 4 + length + -length % 4
        if len(body) - place < 4 or after > len(body):
            raise CaptureFault("an interface with a malformed option")
        if code == 0:
            break
        if code == 9 and resolution is None:
            resolution = body[place + 4 : place + 4 + length]
        place = after
    if resolution is not None and len(resolution) != 1:
        raise CaptureFault("an interface with a malformed option")
    exponent = 6 if resolution is None else resolution[0]
    return int.from_bytes(body[:2], order), 10**exponent if exponent < 128 else 2 ** (exponent - 128)


def record_of_block(order, interfaces, body):
    interface, high, low, captured, original = numbers(order, body, [4] * 5)
    if interface >= len(interfaces):
        raise CaptureFault("a packet of an unknown interface")
    if captured > LONGEST_RECORD:
        raise CaptureFault(RECORD_TOO_LONG)
    if 20 + captured > len(body):
        raise CaptureFault("a packet that overruns its block")
    link_type, units = interfaces[interface]
    nanoseconds = ((high << 32) + low) * 10**9 // units
    return Record(link_type, min(nanoseconds, GREATEST_TIME), original, body[20 : 20 + captured])


def tlvs_in(data):
    """TLVs end to end, or None where these bytes are none."""
    tlvs, place = [], 0
    while place < len(data):
        head = data[place : place + 2]
        if len(head) < 2 or place + 2 + head[1] > len(data):
            return None
        tlvs.append((head[0], data[place + 2 : place + 2 + head[1]]))
        place += 2 + head[1]
    return tlvs


def last_value(tlvs, kind):
    """The value of the last TLV of a type, or None."""
    return next((value for other, value in reversed(tlvs) if other == kind), None)


def packet_in(data):
    """The packet of link type 273 that bytes spell, or None."""
    if len(data) < 4:
        return None
    length = int.from_bytes(data[2:4], "big")
    tlvs = tlvs_in(data[4 : 4 + length]) if 4 + length <= len(data) else None
    return None if tlvs is None else Packet(data[0], data[1], tlvs, data[4 + length :])


def burst_of(packet):
    """The burst in a packet, or why it is passed over."""
    if packet.kind not in (TDMA_BURST, OFDMA_DATA_BURST):
        return OTHER_TYPE
    said = {}
    for kind in (SEGMENT_HEADER_TLV, CHANNEL_TLV, SID_TLV, GRANT_TLV, BURST_ID_TLV):
        value = last_value(packet.tlvs, kind)
        if value is not None and not 1 <= len(value) <= (8 if kind == BURST_ID_TLV else 4):
            return MALFORMED
        said[kind] = None if value is None else int.from_bytes(value, "big")
    if not said[SEGMENT_HEADER_TLV]:
        return NO_SEGMENT_HEADER
    if len(packet.payload) < 8:
        return MALFORMED
    if said[CHANNEL_TLV] is None or said[SID_TLV] is None:
        return NO_CHANNEL_OR_SID
    grant_bits = None if said[GRANT_TLV] is None else said[GRANT_TLV] % (1 << 24)
    return CapturedBurst(packet.kind, said[CHANNEL_TLV], said[SID_TLV], grant_bits, said[BURST_ID_TLV], packet.payload)


def burst_in(record):
    """The burst in a record, or why it is passed over."""
    if record.link_type != XRA:
        return OTHER_LINK_TYPE
    if len(record.bytes) < record.original:
        return CUT_SHORT
    packet = packet_in(record.bytes)
    return MALFORMED if packet is None else burst_of(packet)
