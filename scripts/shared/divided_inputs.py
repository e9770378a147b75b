"""Inputs that examples/cluster divides by flows, each with what one run of all its flows gives:
traces with their reports, and captures with their frames and reports.
"""

import os
import subprocess
from collections import deque

from shared.capture_outputs import read_frames
from shared.generated_traces import Uplink, plain_text
from shared.made_captures import MadeCapture, Shape
from shared.odd_clocks import RIGHT
from shared.plain_map import read_map
from shared.table_of_runs import contents

SHARDS, SECONDS = 4, 120
# More flows than shards, each of 60 to 149 segments, on four channels.
SHAPE = Shape(SHARDS + 2, (60, 150), 4, [])


def ran(words, given):
    """The bytes that a program prints."""
    return subprocess.run(words, input=given, check=True, capture_output=True, timeout=SECONDS).stdout


def write(file, data):
    with open(file, "wb") as out:
        out.write(data)


class Input:
    """A file, whose shards' files have these endings, and the report of one run of it."""

    endings, report = ["report"], b""

    def __init__(self, room, name, ending):
        self.name, self.path = name, os.path.join(room, f"{name}.{ending}")

    def files_of(self, shard):
        """The names of the files of a shard."""
        return {f"{os.path.basename(self.path)}.{shard}-of-{SHARDS}.{ending}" for ending in self.endings}

    def other_files(self):
        """The names of the files that come to the folder with them."""
        return set()

    def files(self):
        return self.other_files().union(*map(self.files_of, range(SHARDS)))

    def wrong_with(self, whole):
        """What is wrong with what was put together: files with these endings."""
        if contents(f"{whole}.report") != self.report:
            yield f"{whole} has another report: {contents(f'{whole}.report')[:900]}, not {self.report[:900]}"


class Trace(Input):
    """A trace, made by chance."""

    command = "replay"

    def __init__(self, segrx, room, name, rng):
        super().__init__(room, name, "trace")
        flows = []
        while len(flows) <= SHARDS:
            uplink = Uplink(rng)
            uplink.add_inputs(90)
            flows = uplink.flows
        text = plain_text(uplink.lines)
        write(self.path, text)
        self.report = ran([segrx, "replay"], text)


class Capture(Input):
    """A capture by some clock, made by chance, whose map stands beside it or is to be made of its
    registrations. A frame's bytes tell of which flow it is; and if the clock is right, times have
    nanoseconds.
    """

    command, endings = "capture", ["frames.pcap", "report"]

    def __init__(self, segrx, room, name, rng, clock, has_map):
        super().__init__(room, name, "capture")
        self.has_map = has_map
        while not self.is_made(segrx, room, MadeCapture(rng, True, SHAPE, clock)):
            pass

    def is_made(self, segrx, room, made):
        """Writes a capture and joins it, if it does."""
        if not self.has_map and not made.has_registrations:
            return False
        text = made.map_text() if self.has_map else ran([segrx, "map"], made.data)
        own_map = f"{self.path}.map" if self.has_map else os.path.join(room, f"{self.name}.own map")
        words = [segrx, "capture", own_map]
        write(self.path, made.data)
        write(own_map, text)
        self.flows = flows_of_frames(read_map(text), ran([*words, "--link", "xra"], made.data))
        report = os.path.join(room, f"{self.name}.own report")
        self.frames = read_frames(ran([*words, "--report", report], made.data), "docsis")
        self.report = contents(report)
        has_nanoseconds = made.clock != RIGHT or any(one.time % 1000 for one in self.frames)
        return has_nanoseconds and len(set(self.flows.values())) > SHARDS

    def other_files(self):
        return set() if self.has_map else {f"{os.path.basename(self.path)}.map"}

    def wrong_with(self, whole):
        yield from super().wrong_with(whole)
        place = self.first_wrong(read_frames(contents(f"{whole}.frames.pcap"), "docsis"))
        if place is not None:
            yield f"{whole} has other frames, from {place} on, or in another order"

    def first_wrong(self, merged):
        """The place of the first frame that isn't the next one of its shard, as one run has them, or
        comes though another shard's next one has an earlier time; or None.
        """
        coming = [deque() for _ in range(SHARDS)]
        for one in self.frames:
            coming[self.flows[one.frame] % SHARDS].append(one)
        for place, one in enumerate(merged):
            least = min((frames[0].time for frames in coming if frames), default=None)
            own = coming[self.flows[one.frame] % SHARDS] if one and one.frame in self.flows else None
            if not own or own.popleft() != one or one.time != least:
                return place
        return len(merged) if any(coming) else None


def flows_of_frames(read, data):
    """The flow of each frame, by its bytes, in a file that says of each on which channel and with
    which SID it came; of none where two flows have the same frame.
    """
    flows = {}
    for one in read_frames(data, "xra"):
        flow = read.sids[read.channel_of(one.channel_id), one.sid]
        if flows.setdefault(one.frame, flow) != flow:
            return {}
    return flows
