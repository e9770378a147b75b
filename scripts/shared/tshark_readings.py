"""What tshark reads of captures, beside what the plain readings read of them: segment headers,
registrations, and frames that were written for it; and what editcap makes of files. Nothing of both
is ours, so they judge from outside.

Each comparison answers with how much agrees, or says in words what doesn't.
"""

import collections
import contextlib
import os
import subprocess
import tempfile
import xml.etree.ElementTree as ElementTree

from shared.check_sequences import ends_with_frame_sequence, ends_with_header_sequence
from shared.plain_capture import RIGHT, WRONG, ethernet_in, sequence_of
from shared.plain_map import messages_in
from shared.plain_packets import CapturedBurst, Record, burst_in, records_of
from shared.plain_reading import header, header_end
from shared.plain_registrations import ToldFlow, ToldSid, told_by
from shared.written_captures import NANOSECONDS, pcap_file

ETHERNET = 1  # the link type
SEGMENT = "docsis_segment"
SEGMENT_FIELDS = ["pfi", "reserved", "pointerfield", "sequencenumber", "sidclusterid", "request", "hcs", "hcs.status"]
SID_FIELDS = [f"docsis_tlv.sid.{name}" for name in ("sfid", "enc.id", "enc.map.uschid", "enc.map.sid", "enc.map.action")]
FLOW_FIELDS = [f"docsis_tlv.sflow.{name}" for name in ("ref", "id", "sid", "reqxmitpol")]
# What a message tells, by the field that stands last in it.
TOLD = {SID_FIELDS[-1]: (ToldSid, SID_FIELDS), FLOW_FIELDS[-1]: (ToldFlow, FLOW_FIELDS)}
# As Ethernet, each frame has a check sequence, which is looked at.
WITH_SEQUENCE = ["-o", "eth.fcs:Always", "-o", "eth.check_fcs:TRUE"]


@contextlib.contextmanager
def file_of(data):
    with tempfile.TemporaryDirectory() as folder:
        name = os.path.join(folder, "capture")
        with open(name, "wb") as file:
            file.write(data)
        yield name


def tshark(data, *words):
    """What tshark prints of a file with these bytes."""
    with file_of(data) as name:
        words = ["tshark", "-r", name, *words]
        return subprocess.run(words, stdout=subprocess.PIPE, stderr=subprocess.DEVNULL, check=True).stdout


def fields_of(data, names, *words):
    """What tshark reads of these fields of each packet: the values of each, in their order."""
    asked = [word for name in names for word in ("-e", name)]
    for line in tshark(data, "-T", "fields", *asked, *words).decode().splitlines():
        yield [values.split(",") if values else [] for values in line.split("\t")]


def converted(data, *words):
    """What editcap makes of a file with these bytes."""
    with file_of(data) as name:
        made = name + ".made"
        subprocess.run(["editcap", *words, name, made], stdout=subprocess.DEVNULL, stderr=subprocess.DEVNULL, check=True)
        with open(made, "rb") as file:
            return file.read()


def compare_conversions(data):
    """How many records are read as they are, where editcap writes a file in another format, and
    cuts its records short. Of a second section of a pcapng file it writes times in the unit of the
    first one, so it writes none as pcapng."""
    records, count = list(records_of(data)), 0
    other = "nsecpcap" if data[0] == 0x0A else "pcapng"
    for form, words, most in ((other, [], None), ("nsecpcap", ["-s", "40"], 40)):
        wanted = [record._replace(bytes=record.bytes[:most]) for record in records]
        if list(records_of(converted(data, "-F", form, *words))) != wanted:
            return f"the records that editcap writes as {form} {words} are others"
        count += len(wanted)
    return count


def header_as_tshark_says(segment):
    """A segment's header and whether its check is right, as numbers in the order of fields."""
    pfi, pointer, sequence, cluster, request = header(segment)
    is_right = ends_with_header_sequence(segment[:8])
    return [pfi, segment[0] >> 6 & 1, pointer, sequence, cluster, request, segment[6] * 256 + segment[7], int(is_right)]


def compare_headers(data):
    """How many segment headers tshark reads as they are, or how it reads one otherwise."""
    read = fields_of(data, [f"{SEGMENT}.{name}" for name in SEGMENT_FIELDS])
    count = 0
    for place, (record, values) in enumerate(zip(records_of(data), read, strict=True), 1):
        burst = burst_in(record)
        if isinstance(burst, CapturedBurst):
            wanted = [[value] for value in header_as_tshark_says(burst.bytes)]
            if [[int(value, 0) for value in one] for one in values] != wanted:
                return f"tshark reads {values} in packet {place} and not {wanted}"
            count += 1
    return count


def told_as_read(data):
    """The flows and SIDs that tshark reads in each packet that completes a message, by the packet's
    place, as they stand."""
    found, are_there = {}, f"{SID_FIELDS[0]} or {FLOW_FIELDS[0]}"
    for packet in ElementTree.fromstring(tshark(data, "-Y", are_there, "-T", "pdml")).iter("packet"):
        said, told = {}, []
        for field in packet.iter("field"):
            name = field.get("name")
            if name == "frame.number":
                found[int(field.get("show")) - 1] = told
            elif name in SID_FIELDS or name in FLOW_FIELDS:
                said[name] = int(field.get("show"), 0)
            if name in TOLD:
                kind, names = TOLD[name]
                told.append(kind(*map(said.get, names)))
    return found


def compare_registrations(data):
    """How many SIDs and how many flows tshark reads as the plain reading does, each message's in
    the same packet, or where it doesn't."""
    told = {place: told_by(message.tlvs) for place, _, message in messages_in(records_of(data))}
    told, read = {place: those for place, those in told.items() if those}, told_as_read(data)
    for place in sorted(told.keys() | read.keys()):
        if told.get(place) != read.get(place):
            return f"tshark reads {read.get(place)} in packet {place + 1} and not {told.get(place)}"
    return collections.Counter(type(one) for those in told.values() for one in those)


def compare_headers_of_frames(data):
    """How many frames of a file tshark reads as they are, each with a good header check exactly if
    it is right."""
    names = ["docsis.hcs.status", "frame.len", "frame.time_epoch"]
    frames = [(record.nanoseconds, record.bytes) for record in records_of(data)]
    for (time, frame), read in zip(frames, fields_of(data, names), strict=True):
        is_right = ends_with_header_sequence(frame[: header_end(frame)])
        if read != [[str(int(is_right))], [str(len(frame))], [f"{time // 10**9}.{time % 10**9:09}"]]:
            return f"tshark reads {read} of the frame {frame.hex()} at {time}"
    return len(frames)


def compare_ethernet(data):
    """How many frames of packets that aren't encrypted tshark reads of a file of frames, written
    anew as Ethernet frames, with a good check sequence exactly if it is right."""
    frames = [record for record in records_of(data) if sequence_of(record.bytes) in (RIGHT, WRONG)]
    packets = [ethernet_in(record.bytes) for record in frames]
    records = [Record(ETHERNET, record.nanoseconds, len(packet), packet) for record, packet in zip(frames, packets)]
    statuses = fields_of(pcap_file(NANOSECONDS, ETHERNET, records), ["eth.fcs.status"], *WITH_SEQUENCE)
    for packet, read in zip(packets, statuses, strict=True):
        if read != [[str(int(ends_with_frame_sequence(packet)))]]:
            return f"tshark reads {read} of the Ethernet frame {packet.hex()}"
    return len(packets)
