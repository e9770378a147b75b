"""What a burst costs a replay, a follow and a capture: of all flows, and for some flows, by whose it
is. Of a flow that is left out nothing is joined, and of a trace its digits are looked at and not
decoded.
"""

import functools
import itertools
import os

from shared.long_captures import APART, packet_on
from shared.marginal_cost import of_one_more
from shared.modem_frames import PACKET, mac_frame
from shared.plain_packets import XRA, Record
from shared.written_captures import NANOSECONDS, pcap_header, pcap_record

# The bursts are all of flow 1. These words ask for all flows, for that one, and for the other.
WORDS = {"of all flows": [], "of one that tells it": ["--flows", "1"], "of one that leaves it out": ["--flows", "0"]}
FEW, MANY = 100, 300
# How many bytes of a frame follow its header.
SIZES = (8, 1484)
MAP = "flow 1 0 1024 1\nflow 2 0 1024 1\nchannel 0 1\nsid 0 1 1\n"


def header(number):
    """The header of a segment in which a frame begins; its check sequence is zeros."""
    return b"\x80\x00" + (number % 8192 << 3).to_bytes(2, "big") + bytes(4)


def trace(size, bursts):
    """A trace of two flows, each burst a frame of the second, and a segment with a grant."""
    yield b"flow 1 0 16 1\nflow 2 0 16 1\nsid 0 1 1\n"
    frame = f"0000{size:04x}1111{'ab' * size}"
    for number in range(bursts):
        yield f"grant 0 {number} 1 {size + 14}\nburst 0 {number} ok {header(number).hex()}{frame}\n".encode()


def has_admitted(text, bursts):
    return b"lane 0 admitted %d " % bursts in text


def capture(size, bursts):
    """A capture of two flows, each burst a frame of the second."""
    yield pcap_header(NANOSECONDS, XRA)
    frame = mac_frame(PACKET, b"", b"\xab" * size)
    for number in range(bursts):
        packet = packet_on(1, 1, header(number) + frame)
        yield pcap_record(NANOSECONDS, Record(XRA, number * APART, len(packet), packet))


def has_its_frames(told, size, output, bursts):
    """Whether the file has its header, and behind it each frame, if those of its flow are told."""
    return len(output) == 24 + (bursts * (16 + 6 + size) if told else 0)


def measured_shards(segrx, room):
    """How many instructions a burst takes more, by the command, the flows and the bytes of its frame."""
    file = os.path.join(room, "map")
    with open(file, "w") as out:
        out.write(MAP)
    costs = {}
    for size, (name, words) in itertools.product(SIZES, WORDS.items()):
        is_told = words != WORDS["of one that leaves it out"]
        ways = {command: ([command, *words], trace, has_admitted) for command in ("replay", "follow")}
        ways["capture"] = ["capture", file, *words], capture, functools.partial(has_its_frames, is_told, size)
        for command, (asked, made, is_right) in ways.items():
            cost = of_one_more(segrx, asked, FEW, MANY, functools.partial(made, size), is_right, room)
            costs[f"a burst of {size + 14} bytes, in a {command} {name}"] = cost
    return costs
