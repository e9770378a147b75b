"""A plain, slow reading of frames, of how segments are joined, of what becomes of a flow's segments
and of the rule by which a receiver decides itself what is lost, and a modem's cut, for the scripts
that compare them with the code.

A frame is known only by its grammar: every length is tried for a whole frame in front of some
bytes. Of its header, from FC to the end of HCS, a check may be asked too. A segment is its bytes,
of which the first eight are its header.
"""

import bisect
import collections

MODULUS, AHEAD = 8192, 4096
Header = collections.namedtuple("Header", "pfi pointer number cluster request")
# By what is decided what is lost: by what is handed in alone, besides by what every channel has
# passed, and besides by what lies too far behind a segment that comes.
RULES = DECIDED, PASSED, SLID = "decided", "passed", "slid"


def header(segment):
    words = [segment[k] * 256 + segment[k + 1] for k in (0, 2, 4)]
    return Header(words[0] // 32768, words[0] % 16384, words[1] // 8, words[1] % 8, words[2])


def any_header(_header):
    """The check of a frame's header that each passes."""
    return True


def header_end(text):
    """Where the header ends of a frame that begins with these bytes."""
    return 6 + (text[1] if text[0] % 2 == 1 else 0)


def is_frame(text, check=any_header):
    if len(text) < 6 or text[0] in (0xC4, 0xC5, 0xC8, 0xC9, 0xFF) or not any(text[:4]):
        return False
    length, extended = text[2] * 256 + text[3], header_end(text) - 6
    has_its_length = len(text) == 6 + length and extended <= 240 and extended <= length
    return has_its_length and check(text[: header_end(text)])


def whole_frame(text, check=any_header):
    """The whole frame in front of the bytes, or None. No frame is the front of another one."""
    return next((text[:n] for n in range(6, len(text) + 1) if is_frame(text[:n], check)), None)


def waits(text, check=any_header):
    """Whether bytes without a whole frame in front wait for more: they are the front of some frame,
    whose header passes the check if all of it is there."""
    if len(text) < 4:
        return text[:1] != b"\xff"
    is_front = is_frame(text[:4] + bytes(2 + text[2] * 256 + text[3]))
    return is_front and (len(text) < header_end(text) or check(text[: header_end(text)]))


def walk(text, check=any_header):
    frames = []
    while (frame := whole_frame(text, check)) is not None:
        frames.append(frame)
        text = text[len(frame) :]
    return frames, text if waits(text, check) else b""


def feed(unfinished, segment, check=any_header):
    """The frames that a segment completes, and what is unfinished then."""
    pfi, pointer, *_ = header(segment)
    payload = segment[8:]
    if pfi == 0 and not unfinished:
        return [], b""
    if pfi == 0:
        text = unfinished + payload
        frame = whole_frame(text, check)
        if frame is not None:
            return [frame], b""
        return [], text if waits(text, check) else b""
    ended = unfinished + payload[:pointer]
    done = [ended] if unfinished and is_frame(ended, check) else []
    frames, rest = walk(payload[pointer:], check)
    return done + frames, rest


class Flow:
    """What became of the segments of a flow. An index is a segment's true place in its flow and
    never goes round; the number in its header is the first number plus the index, modulo 8192."""

    def __init__(self, first, window):
        self.first, self.window = first, window
        self.kept = {}  # the kept indexes, each with its segment
        self.declared = set()  # the indexes that were declared lost or skipped
        self.expected = 0  # the least index in neither

    def index(self, number):
        """The one index with this number from 4096 before the expected one to 4095 after it."""
        least = self.expected - AHEAD
        return least + (number - self.first - least) % MODULUS

    def arrive(self, segment):
        index = self.index(header(segment).number)
        if index < self.expected:
            return "late"
        if index >= self.expected + self.window:
            return "beyond"
        if index in self.kept:
            return "repeat"
        self.kept[index] = segment
        self.pass_settled()
        return "kept"

    def gap(self, number=None):
        """Declares the expected index lost or, with a number, all that is missing before the index
        that has it, but only what lies before a kept index. Answers whether anything was
        declared."""
        end = self.expected + 1 if number is None else self.index(number)
        last = max(self.kept, default=-1)
        lost = [index for index in range(self.expected, min(end, last)) if index not in self.kept]
        self.declared.update(lost)
        self.pass_settled()
        return bool(lost)

    def skip(self, number):
        """Skips all that is missing before the number's index, and answers whether anything was."""
        lost = [index for index in range(self.expected, self.index(number)) if index not in self.kept]
        self.declared.update(lost)
        self.pass_settled()
        return bool(lost)

    def pass_settled(self):
        while self.expected in self.kept or self.expected in self.declared:
            self.expected += 1

    def joined(self):
        """The frames of what is settled, in the order of indexes, and what is then unfinished."""
        frames, unfinished = [], b""
        for index in range(self.expected):
            given, unfinished = feed(unfinished, self.kept[index]) if index in self.kept else ([], b"")
            frames += given
        return frames, unfinished


class RuledFlow(Flow):
    """A flow that decides besides by a rule what is lost. Of each channel of the flow it knows the
    true index of the last segment that came there: None where none came yet, or where its number
    lay behind."""

    def __init__(self, first, window, rule, channels):
        super().__init__(first, window)
        self.rule, self.lasts = rule, dict.fromkeys(channels)
        self.lost_by_rule = frozenset()

    def come(self, channel, segment):
        """A segment comes on this channel of the flow. It is noted, then the rule loses what it
        does, and then it arrives."""
        number = header(segment).number
        if self.rule != DECIDED:
            index = self.index(number)
            self.lasts[channel] = index if index >= self.expected else None
            self.lose_before(self.passed_to())
        if self.rule == SLID and self.index(number) >= self.expected + self.window:
            self.lose_before(self.index(number) - self.window + 1)
        return self.arrive(segment)

    def passed_to(self):
        """The index before which all channels of the flow have passed: the least of their last
        indexes, or the expected one, where that isn't less or some channel has none."""
        return self.expected if None in self.lasts.values() else max(min(self.lasts.values()), self.expected)

    def lose_before(self, end):
        """Declares all that is missing from the expected index on and lies before this one."""
        lost = {index for index in range(self.expected, end) if index not in self.kept}
        if lost:
            self.declared |= lost
            self.lost_by_rule |= lost
        self.pass_settled()


class LiveFlow(RuledFlow):
    """A flow whose settled segments are joined once, with what it gave and counted since it was
    begun or began anew."""

    def __init__(self, first, window, rule, channels, check=any_header):
        super().__init__(first, window, rule, channels)
        self.check = check
        self.verdicts = dict(kept=0, late=0, repeat=0, beyond=0)
        self.skipped_to = None
        self.joined_to, self.unfinished, self.ready = 0, b"", []
        self.frame_count, self.joined_bytes, self.frame_bytes = 0, 0, 0

    def number(self, index):
        return (self.first + index) % MODULUS

    def lose_before(self, end):
        if end > self.expected:
            self.skipped_to = self.number(end)
        super().lose_before(end)

    def told(self, channel, segment):
        """What is told of a segment that comes: the verdict, and up to which number the rule
        skipped before it."""
        self.skipped_to = None
        verdict = self.come(channel, segment)
        self.verdicts[verdict] += 1
        return verdict, self.skipped_to

    def join(self):
        """Joins what was settled since it was joined last."""
        for index in range(self.joined_to, self.expected):
            frames, self.unfinished = feed(self.unfinished, self.kept[index], self.check) if index in self.kept else ([], b"")
            self.joined_bytes += len(self.kept[index]) - 8 if index in self.kept else 0
            self.frame_bytes += sum(map(len, frames))
            self.frame_count += len(frames)
            self.ready += frames
        self.joined_to = self.expected

    def gives(self):
        """The frames that it gives now."""
        self.join()
        frames, self.ready = self.ready, []
        return frames

    def held(self):
        """How many segments are kept and not joined yet."""
        return sum(index >= self.expected for index in self.kept)

    def counts(self):
        self.join()
        skipped = self.joined_bytes - self.frame_bytes - len(self.unfinished)
        return {**self.verdicts, "lost": len(self.declared), "frames": self.frame_count, "skipped": skipped}

    def close(self):
        while self.gap():
            pass


class Cut:
    """A modem's frames, cut into segments, each with the places of its chunk in the stream."""

    def __init__(self, rng, first, count, new_frame=None, sizes=(0, 0, 1, 2, 3, 5, 8, 13, 21)):
        self.frames, self.chunks, self.segments = [], [], []
        new_frame = new_frame or some_frame
        fill, stream, ends, place = rng.choice([b"\x00", b"\xff"]), bytearray(), [0], 0
        for index in range(count):
            size = rng.choice(sizes)
            while len(stream) < place + size:
                self.frames.append(new_frame(rng))
                stream += self.frames[-1]
                ends.append(len(stream))
            # So far from here a frame ends and the next one begins.
            begun = ends[bisect.bisect_left(ends, place)] - place
            if rng.random() < 0.3:
                size = begun
            chunk = bytes(stream[place : place + size])
            self.chunks.append((place, place + size))
            place += size
            filled = fill * rng.choice([0, 0, 1, 2, 4, 7]) if ends[bisect.bisect_left(ends, place)] == place else b""
            pointer = 0x8000 | begun if begun < size else rng.choice([0, 0x3FFF])
            self.segments.append((pointer, (first + index) % MODULUS, chunk + filled))

    def frames_over(self, is_there):
        """The frames that lie wholly in the cut and of which each segment is there."""
        low, start = 0, 0
        for frame in self.frames:
            end = start + len(frame)
            if end > self.chunks[-1][1]:
                return
            while self.chunks[low][1] <= start:
                low += 1
            high = low
            while self.chunks[high][1] < end:
                high += 1
            if all(map(is_there, range(low, high + 1))):
                yield frame
            low, start = high, end

    def delivered(self, flow):
        """The frames wholly in the cut whose segments were each kept, below the expected index."""
        return self.frames_over(lambda index: index in flow.kept and index < flow.expected)


def some_frame(rng):
    fc = rng.choice([0x00, 0x00, 0x01, 0x01, 0xC2, 0x55, 0xFE])
    rest = rng.randrange(0, 12)
    extended = rng.randrange(0, 5) if fc % 2 == 1 else 0
    parm = extended if fc % 2 == 1 else rng.randrange(0, 256)
    length = extended + rest
    if fc == 0 and parm == 0 and length == 0:
        length = rest = 1
    body = bytes(rng.choice([0x00, 0x00, 0xFF, 0x11]) for _ in range(length + 2))
    return bytes([fc, parm]) + length.to_bytes(2, "big") + body
