"""Writes what captures are made of: packets of link type 273 with their TLVs, and pcap and pcapng
files of records."""

import collections

from shared.plain_packets import INTERFACE, PACKET_BLOCK, SECTION_HEADER

# A file's form: whether it is pcapng, the order of its numbers, and as how many units of a second
# times are written. A pcap file has microseconds or nanoseconds.
Form = collections.namedtuple("Form", "is_pcapng order units")
NANOSECONDS = Form(False, "little", 10**9)
GREATEST_PCAP_TIME = (1 << 32) * 10**9 - 1  # seconds have four bytes


def number(value, size):
    return value.to_bytes(size, "big")


def short_number(value):
    """A number in as few bytes as it needs."""
    return number(value, max(1, (value.bit_length() + 7) // 8))


def tlv(kind, value):
    return bytes([kind, len(value)]) + value


def xra_packet(kind, tlvs, payload, version=1):
    return bytes([version, kind]) + number(len(tlvs), 2) + tlvs + payload


def rounded(form, nanoseconds):
    """A time as a file of this form says it."""
    return nanoseconds * form.units // 10**9 * 10**9 // form.units


def joined_numbers(order, *pairs):
    return b"".join(value.to_bytes(size, order) for value, size in pairs)


def pcap_header(form, link_type):
    magic = 0xA1B23C4D if form.units == 10**9 else 0xA1B2C3D4
    return joined_numbers(form.order, (magic, 4), (2, 2), (4, 2), (0, 4), (0, 4), (1 << 18, 4), (link_type, 4))


def pcap_record(form, record):
    ticks = min(record.nanoseconds, GREATEST_PCAP_TIME) * form.units // 10**9
    seconds, fraction = divmod(ticks, form.units)
    sizes = (len(record.bytes), 4), (record.original, 4)
    return joined_numbers(form.order, (seconds, 4), (fraction, 4), *sizes) + record.bytes


def pcap_file(form, link_type, records):
    return pcap_header(form, link_type) + b"".join(pcap_record(form, record) for record in records)


def block(order, kind, body):
    body += bytes(-len(body) % 4)
    total = len(body) + 12
    return joined_numbers(order, (kind, 4), (total, 4)) + body + joined_numbers(order, (total, 4))


def option(order, code, value):
    return joined_numbers(order, (code, 2), (len(value), 2)) + value + bytes(-len(value) % 4)


def section_block(order):
    return block(order, SECTION_HEADER, joined_numbers(order, (0x1A2B3C4D, 4), (1, 2), (0, 2), ((1 << 64) - 1, 8)))


def interface_block(form, link_type):
    """An interface of this link type. That a second has a million units need not be said."""
    powers = {10**power: power for power in range(20)} | {2**power: 128 + power for power in range(1, 40)}
    options = option(form.order, 2, b"analyser")
    if form.units != 10**6:
        options += option(form.order, 9, bytes([powers[form.units]]))
    options += option(form.order, 0, b"")
    return block(form.order, INTERFACE, joined_numbers(form.order, (link_type, 2), (0, 2), (1 << 18, 4)) + options)


def packet_block(form, interface, record):
    ticks = record.nanoseconds * form.units // 10**9
    head = (interface, 4), (ticks >> 32, 4), (ticks % (1 << 32), 4), (len(record.bytes), 4), (record.original, 4)
    return block(form.order, PACKET_BLOCK, joined_numbers(form.order, *head) + record.bytes)


def pcapng_file(form, records, others=None):
    """A file of one section, with an interface for each link type; others are blocks that a reader
    passes over, by the place of the record before which each stands."""
    link_types = sorted({record.link_type for record in records})
    parts = [section_block(form.order), *(interface_block(form, link_type) for link_type in link_types)]
    for place, record in enumerate(records):
        parts += (others or {}).get(place, [])
        parts.append(packet_block(form, link_types.index(record.link_type), record))
    return b"".join(parts)
