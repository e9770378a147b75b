"""What `segrx capture` writes: a pcap file of frames, the report of its summary, the same as a JSON
object on one line, and requests as CSV. Where some flows are selected, the frames of the others and
what was counted of them is left out. A time for which a pcap file has no place, in the year 2106 or
later, is written as the greatest one.

The report has the lines of replay's report but for those of frames and requests, and more:

    flow <index> <sfid> kept <n> late <n> repeat <n> beyond <n> lost <n> frames <n> skipped <n>
    joined <index> right <n> wrong <n> encrypted <n> restarts <n> requests <n> units <n>
    lane <channel> admitted <n> refused <list>
    bursts <channel> <id> <n> above <n>
    passed <n> <why>
    records <n> earlier <n>
    clock set_back <n> crowded <n>

In the list of refusals stands behind each number, after an `x`, how often it came, since a list of
all would grow. CSV begins with a line of names, and its times are seconds with nine decimals.
"""

import collections
import json

from shared.plain_capture import DOCSIS, ENCRYPTED, RIGHT, UPSTREAM_FRAME, WRONG
from shared.plain_packets import BURST_INFO_TLV, CHANNEL_TLV, SID_TLV, XRA, Record, last_value, packet_in, records_of
from shared.written_captures import GREATEST_PCAP_TIME, NANOSECONDS, number, pcap_file, short_number, tlv, xra_packet

LINKS = {"docsis": DOCSIS, "xra": XRA}
# A lane's refusals, by number, and the kinds of records that are passed over, as JSON has them.
REFUSED_GRANT_NAMES = ["out_of_range", "known", "unknown_sid", "too_many", "out_of_memory"]
REFUSED_BURST_NAMES = ["no_grant", "too_long", "bad_check", "too_short", "pointer_past_the_end", "out_of_memory"]
PASSED_NAMES = [
    *["cut_short", "malformed", "no_channel_or_sid", "no_segment_header"],
    *["other_link_type", "other_type", "unknown_channel", "unknown_sid"],
]
REQUEST_NAMES = "time,channel,sid,flow,cluster,units"
BURST_REFERENCE_TLV = 1  # in a TLV with burst info

# A frame as a file has it. Channel and SID are those of its last burst, where a link type has them.
WrittenFrame = collections.namedtuple("WrittenFrame", "time frame channel_id sid")


def frame_as_packet(burst, frame):
    """A packet of a frame that this burst completed."""
    address = tlv(CHANNEL_TLV, short_number(burst.channel)) + tlv(SID_TLV, number(burst.sid, 2))
    reference = b"" if burst.burst_id is None else tlv(BURST_REFERENCE_TLV, number(burst.burst_id, 8))
    return xra_packet(UPSTREAM_FRAME, address + tlv(BURST_INFO_TLV, reference + address), frame)


def frames_left(reading, is_selected):
    """The frames of a reading that are of selected flows."""
    return [given for given in reading.frames if is_selected(given.flow)]


def written_file(reading, link, is_selected):
    """The file of the frames of a reading."""
    records = []
    for given in frames_left(reading, is_selected):
        data = frame_as_packet(given.coming.burst, given.frame) if link == "xra" else given.frame
        records.append(Record(LINKS[link], given.time, len(data), data))
    return pcap_file(NANOSECONDS, LINKS[link], records)


def wanted_frames(reading, link, is_selected):
    """The frames of a reading as a file of this link type has them."""
    for given in frames_left(reading, is_selected):
        burst = given.coming.burst
        address = (burst.channel, burst.sid) if link == "xra" else (None, None)
        yield WrittenFrame(min(given.time, GREATEST_PCAP_TIME), given.frame, *address)


def read_frame(record, link):
    """The frame in a record of a file that was written, or None where none is as it should be."""
    if record.link_type != LINKS[link] or record.original != len(record.bytes):
        return None
    if link == "docsis":
        return WrittenFrame(record.nanoseconds, record.bytes, None, None)
    packet = packet_in(record.bytes)
    if packet is None or packet.kind != UPSTREAM_FRAME:
        return None
    address = (last_value(packet.tlvs, kind) or b"" for kind in (CHANNEL_TLV, SID_TLV))
    return WrittenFrame(record.nanoseconds, packet.payload, *(int.from_bytes(value, "big") for value in address))


def read_frames(data, link):
    """The frames in a file that was written. One without a frame may have no bytes."""
    return [read_frame(record, link) for record in records_of(data)] if data else []


def line_of(*words, **counts):
    return " ".join(map(str, [*words, *(word for pair in counts.items() for word in pair)]))


def flows_left(reading, is_selected):
    """The flows of a reading that are selected, by their indexes."""
    return [(index, flow) for index, flow in enumerate(reading.captured) if is_selected(index)]


def report_of(reading, is_selected):
    """The lines of the report of a reading."""
    for index, flow in flows_left(reading, is_selected):
        yield line_of("flow", index, flow.setup.sfid, **flow.counts())
        known = {name: reading.sequences[index, name] for name in (RIGHT, WRONG, ENCRYPTED)}
        requests = [request.units for request in reading.requests if request.flow == index]
        yield line_of("joined", index, **known, restarts=flow.restarts, requests=len(requests), units=sum(requests))
    for channel, lane in sorted(reading.lanes.items()):
        refused = collections.Counter(lane.refused())
        counted = [f"{refusal}x{count}" for refusal, count in sorted(refused.items())] or ["-"]
        admitted = sum(answer == lane.ADMITTED for _, answer, _ in lane.answers)
        yield line_of("lane", channel, "admitted", admitted, "refused", *counted)
        above = reading.above_grant[channel]
        yield line_of("bursts", channel, reading.map.channels[channel], reading.bursts[channel], above=above)
    for why, count in sorted(reading.passed.items()):
        yield line_of("passed", count, why)
    yield line_of("records", reading.records, earlier=reading.earlier_times)
    clocks = {name: sum(getattr(flow, name) for flow in reading.captured) for name in ("set_back", "crowded")}
    yield line_of("clock", **clocks)


def flow_as_json(reading, index, flow):
    counts = flow.counts()
    requests = [request.units for request in reading.requests if request.flow == index]
    known = {"fcs_right": RIGHT, "fcs_wrong": WRONG, "encrypted": ENCRYPTED}
    return {
        "sfid": flow.setup.sfid,
        "segments": {name: counts[name] for name in ("kept", "late", "beyond", "lost")} | {"repeated": counts["repeat"]},
        "frames": {"all": counts["frames"]} | {name: reading.sequences[index, kind] for name, kind in known.items()},
        "skipped_bytes": counts["skipped"],
        "restarts": flow.restarts,
        "requests": {"all": len(requests), "units": sum(requests)},
    }


def channel_as_json(reading, channel, lane):
    refused = collections.Counter(lane.refused())
    return {
        "channel": channel,
        "id": reading.map.channels[channel],
        "bursts": reading.bursts[channel],
        "above_grant": reading.above_grant[channel],
        "admitted": sum(answer == lane.ADMITTED for _, answer, _ in lane.answers),
        "refused_grants": {name: refused[number] for number, name in enumerate(REFUSED_GRANT_NAMES, 1)},
        "refused_bursts": {name: refused[number] for number, name in enumerate(REFUSED_BURST_NAMES, 6)},
    }


def json_of(reading, is_selected, compared=None):
    """The line of JSON of a reading, with how frames compare, where they are compared."""
    passed = {why.lower().replace(" ", "_"): count for why, count in reading.passed.items()}
    told = {
        "records": reading.records,
        "earlier": reading.earlier_times,
        "clock_set_back": sum(flow.set_back for flow in reading.captured),
        "clock_crowded": sum(flow.crowded for flow in reading.captured),
        "comparison": compared,
        "flows": [flow_as_json(reading, index, flow) for index, flow in flows_left(reading, is_selected)],
        "channels": [channel_as_json(reading, channel, lane) for channel, lane in sorted(reading.lanes.items())],
        "passed": dict.fromkeys(PASSED_NAMES, 0) | passed,
    }
    yield json.dumps(told, sort_keys=True, separators=(",", ":"))


def requests_of(reading):
    """The lines of CSV of the requests of a reading."""
    yield REQUEST_NAMES
    for request in reading.requests:
        time = f"{request.time // 10**9}.{request.time % 10**9:09}"
        yield ",".join(map(str, [time, *request[1:]]))
