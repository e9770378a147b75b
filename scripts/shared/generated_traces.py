"""Generated traces for `segrx replay` and `segrx run`: lawful ones, the same in another dress, and
faulty ones."""

from shared.plain_reading import AHEAD, MODULUS, Cut, some_frame
from shared.plain_receiver import CHANNELS, CHECK, FORMS, HEX, MOST_FLOWS, MOST_GRANTS

# Some that would be the same if they were cut to 16 or 31 bits.
NUMBERS = [0, 1, 2, 3, 65536, 65537, 1 << 31, (1 << 31) + 1, 4294967295]
NO_SIZES = [0, 7, 65536, 65544, 4294967295]
FIRST_WORDS = ["frob", "FLOW", "flows", "sids", "gap\x0b", "gap\x00", "-", "join", "frame", "\xef\xbb\xbfflow", "#gap"]
# What is no field, or not that of its place.
STRAYS = [
    *["-", "--", "+1", "-1", "0x1", "1.0", "1_0", "1e3", "x", "0", "00", "0g", "abc", "#", "ok", "bad", "OK", "maybe"],
    *["1\x0b", "\x0c1", "1\x00", "\xb2", "\xff", "\xd9\xa1"],
    *["4294967296", "18446744073709551616", "9" * 400, "0" * 400],
]
BYTES = b"\n\n\r\t  ##--0123456789abcdefABCDEFgkoflwsidrntu\x00\x0b\x0b\x0b\x0c\x7f\x80\xff"


def header_of(words):
    return b"".join(word.to_bytes(2, "big") for word in words)


class SentFlow:
    """A flow whose segments are sent: those of a cut, some of them spoiled or not, or any segments.
    One that is calm sends each segment once at most, and they fit into its window."""

    def __init__(self, rng, index, calm=False):
        self.rng, self.index, self.calm = rng, index, calm
        self.first = rng.choice([0, 0, 8190, 8191, 8180, 4095, rng.randrange(MODULUS)])
        self.window = rng.choice([400, 4096] if calm else [1, 2, 3, 5, 16, 16, 16, 100, 4096])
        self.kind = rng.choice(["any"] if calm and rng.random() < 0.7 else ["cut", "cut", "spoiled", "any"])
        self.cut = None if self.kind == "any" else Cut(rng, self.first, 60 if calm else rng.randrange(1, 40))
        self.next = 0

    def number(self, index):
        return (self.first + index) % MODULUS

    def some_index(self):
        """The next index, one before it again, one after it with some skipped, or one far off."""
        far = [] if self.calm else [-1, -1, -2, self.window, -self.window, AHEAD - 1, AHEAD, -AHEAD]
        skip = self.rng.choice([0] * 24 + [1, 1, 2, *far])
        if 0 <= skip <= 2:
            self.next += skip + 1
            return self.next - 1
        return self.next + skip

    def some_segment(self):
        rng, index = self.rng, self.some_index()
        if self.cut is not None:
            pointer, number, payload = self.cut.segments[min(max(0, index), len(self.cut.segments) - 1)]
        else:
            number, payload = self.number(index), rng.choice([some_frame(rng), rng.randbytes(rng.randrange(5)), b""])
            pointer = 0x8000 | rng.randrange(len(payload)) if payload and rng.random() < 0.8 else 0
        if self.kind == "spoiled" and payload and rng.random() < 0.3:
            place = rng.randrange(len(payload))
            spoiled = rng.choice([b"\x00", b"\xff", b"\xc8", rng.randbytes(1)])
            payload = payload[:place] + spoiled + payload[place + 1 :]
        if self.kind == "spoiled" and payload and rng.random() < 0.1:
            pointer = rng.choice([0, 0x8000 | rng.randrange(len(payload))])
        request = rng.choice([0, 0, 1, 7, 65535])
        words = [pointer | rng.choice([0, 0x4000]), number << 3 | rng.randrange(8), request, rng.randrange(65536)]
        return header_of(words) + payload


class Uplink:
    """Flows, SIDs and what comes in on the channels, as the words of lines. In a calm one there are
    no decisions, and each flow is calm or comes on one channel alone."""

    def __init__(self, rng, crowded=0.01, calm=False, channels=CHANNELS):
        self.rng, self.calm, self.channels = rng, calm, channels
        count = MOST_FLOWS if rng.random() < crowded else rng.choice([0, *[1] * 12, 2, 2, 2, 2, 3, 5])
        self.flows = [SentFlow(rng, index, calm and rng.random() < 0.7) for index in range(count)]
        self.sids = [{} for _ in range(channels)]  # the flow of each SID of a channel
        # The flow, the size and what is to come of each outstanding grant.
        self.granted = [{} for _ in range(channels)]
        self.lines = []
        self.add_setup()

    def add_setup(self):
        rng, waiting, count = self.rng, [], len(self.flows)
        sfids = rng.sample(NUMBERS if count < 6 and rng.random() < 0.5 else range(1 << 32), count)
        for flow, sfid in zip(self.flows, sfids):
            self.lines.append(["flow", sfid, flow.first, flow.window, rng.randrange(1, 9)])
            alone = count >= 6 or (self.calm and not flow.calm)
            for channel in rng.sample(range(self.channels), 1 if alone else min(self.channels, rng.choice([1, 2, 4]))):
                for sid in rng.sample([0, 1, 2, 16383, rng.randrange(3, 16383)], rng.choice([1, 1, 2])):
                    if sid not in self.sids[channel]:
                        self.sids[channel][sid] = flow
                        waiting.append(["sid", channel, sid, flow.index])
            rng.shuffle(waiting)
            while waiting and rng.random() < 0.4:
                self.lines.append(waiting.pop())
        self.lines += waiting

    def grant(self, channel, number, sid, size, segment):
        self.lines.append(["grant", channel, number, sid, size])
        if sid in self.sids[channel] and 8 <= size <= 65535:
            self.granted[channel].setdefault(number, (self.sids[channel][sid], size, segment))

    def burst(self, channel, number, check, segment):
        self.lines.append(["burst", channel, number, check, segment])
        self.granted[channel].pop(number, None)

    def channel_with(self, of_channel):
        """A channel of which there is something, or any where there is none."""
        return self.rng.choice([channel for channel in range(self.channels) if of_channel[channel]] or range(self.channels))

    def some_grant(self):
        rng, channel = self.rng, self.channel_with(self.sids)
        if self.sids[channel]:
            sid, flow = rng.choice(list(self.sids[channel].items()))
            segment = flow.some_segment()
            number = rng.choice([*(n for n in NUMBERS if n not in self.granted[channel]), rng.randrange(1 << 32)])
            self.grant(channel, number, sid, len(segment) + rng.choice([0, 0, 0, 1, 200]), segment)

    def some_burst(self):
        channel = self.channel_with(self.granted)
        granted = self.granted[channel]
        if granted:
            number = next(iter(granted)) if self.rng.random() < 0.8 else self.rng.choice(list(granted))
            self.burst(channel, number, "ok", granted[number][2])

    def some_gap(self):
        if self.flows:
            flow = self.rng.choice(self.flows)
            far = self.rng.choice([flow.window, AHEAD - 9, self.rng.randrange(MODULUS)])
            number = flow.number(flow.next + self.rng.choice([-9, -2, -1, 0, 0, 1, 2, far]))
            self.lines.append(["gap", flow.index] + self.rng.choice([[], [number]]))

    def unfit_grant(self):
        """A grant whose size, number and SID are right or wrong by chance."""
        rng, channel = self.rng, self.rng.randrange(self.channels)
        number = rng.choice([*NUMBERS, *self.granted[channel]])
        sid = rng.choice([0, 1, 2, 3, 16383, *self.sids[channel]])
        segment = self.sids[channel][sid].some_segment() if sid in self.sids[channel] else bytes(8)
        self.grant(channel, number, sid, rng.choice([len(segment), 8, 65535, *NO_SIZES]), segment)

    def unfit_burst(self):
        """A burst that by chance is too long or too short or has a bad check, a pointer past its
        end or no grant."""
        rng, channel = self.rng, self.channel_with(self.granted)
        number = rng.choice([*NUMBERS[:2], *self.granted[channel], *self.granted[channel]])
        flow, size, segment = self.granted[channel].get(number, (None, 0, bytes(8)))
        if flow is not None and rng.random() < 0.8:
            flow.kind = "spoiled"
            pointer = rng.choice([0, 0x8000]) | max(0, len(segment) - 8 + rng.choice([-1, 0, 0, 1, 9]))
            longer = segment + bytes(max(0, size - len(segment) + rng.choice([0, 1, 1, 9])))
            pointed = pointer.to_bytes(2, "big") + segment[2:]
            segment = rng.choice([b"", segment[: rng.randrange(9)], longer, pointed])
        self.burst(channel, number, rng.choice(["ok", "ok", "bad"]), segment)

    def add_inputs(self, count):
        steps = [self.some_grant, self.some_burst, self.some_gap, self.unfit_grant, self.unfit_burst]
        weights = [39, 43, 0 if self.calm else 8, 5, 5]
        for _ in range(count):
            self.rng.choices(steps, weights)[0]()


class DealtFlow:
    """A flow whose segments a modem deals over one to four channels, each channel's in order. Some
    are lost on the way, a few come once more on another channel, and there may be outages, channels
    that fall silent and decisions."""

    def __init__(self, rng, index, count):
        self.rng, self.index = rng, index
        self.first = rng.choice([8190, 8191, 8185, 8100, 4095, 0, rng.randrange(MODULUS)])
        self.window = rng.choice([rng.randrange(1, 21), rng.randrange(1, 21), AHEAD])
        self.kind = rng.choice(["cut", "any"])
        self.cut = Cut(rng, self.first, count) if self.kind == "cut" else None
        self.queues = {channel: [] for channel in rng.sample(range(CHANNELS), rng.choice([1, 2, 2, 3, 4]))}
        self.losses, self.repeats, self.decisions = (rng.choice([0, 0.1, often]) for often in (0.4, 0.02, 0.05))
        self.deal(count)

    def number(self, index):
        return (self.first + index) % MODULUS

    def jump(self):
        """How many segments an outage takes, mostly none. A cut has too few for a long one."""
        far = [] if self.cut else [self.window - 1, self.window, self.window + 1, 70, 4000, AHEAD - 1]
        return self.rng.choice([*[0] * 60, 2, 5, *far])

    def deal(self, count):
        """Puts each segment that isn't lost into its channel's queue."""
        rng, live, index = self.rng, list(self.queues), 0
        for at in range(count):
            index += self.jump()
            if self.cut is not None and index >= count:
                return
            if len(live) > 1 and rng.random() < 0.02:
                live.pop(rng.randrange(len(live)))
            if rng.random() >= self.losses:
                own = live[at % len(live)] if rng.random() < 0.9 else rng.choice(live)
                channels = {own, rng.choice(live)} if rng.random() < self.repeats else {own}
                for channel in channels:
                    self.queues[channel].append((index, self.segment(index)))
            index += 1

    def segment(self, index):
        pointer, number, payload = 0x8000, self.number(index), some_frame(self.rng)
        if self.cut is not None:
            pointer, number, payload = self.cut.segments[index]
        return header_of([pointer, number << 3 | self.rng.randrange(8), self.rng.choice([0, 0, 7]), 0]) + payload

    def next(self):
        """The channel and the segment that come next: in most cases the first of all that wait."""
        waiting = [channel for channel, queue in self.queues.items() if queue]
        least = min(waiting, key=lambda channel: self.queues[channel][0])
        channel = least if self.rng.random() < 0.7 else self.rng.choice(waiting)
        return channel, self.queues[channel].pop(0)

    def lines(self):
        """The words of the lines of what comes. Each flow has the one SID that is its index."""
        at = 0
        while any(self.queues.values()):
            channel, (index, segment) = self.next()
            number = self.index << 16 | at
            yield [["grant", channel, number, self.index, len(segment)], ["burst", channel, number, "ok", segment]]
            if self.rng.random() < self.decisions:
                near = self.number(index + self.rng.choice([-self.window, -2, -1, 0, 1]))
                yield [["gap", self.index, *self.rng.choice([[], [near]])]]
            at += 1


def plain_word(value):
    return value.hex() or "-" if isinstance(value, bytes) else str(value)


def plain_text(lines):
    return "".join(" ".join(map(plain_word, line)) + "\n" for line in lines).encode("latin-1")


def dressed_text(rng, lines):
    """The same lines with other blanks and digits, and between them some that are skipped."""

    def blanks(least):
        return "".join(rng.choice(" \t\r") for _ in range(max(least, rng.choice([0, 0, 0, 1, 2, 3]))))

    def dressed_word(value):
        word = plain_word(value)
        if isinstance(value, int):
            return "0" * rng.choice([0, 0, 1, 30]) + word
        return "".join(rng.choice([digit, digit.upper()]) for digit in word) if isinstance(value, bytes) else word

    text = ""
    for *front, last in lines:
        while rng.random() < 0.2:
            text += blanks(0) + rng.choice(["", "#", "# flow 1", "#\xff\x00", "##"]) + blanks(0) + "\n"
        text += blanks(0) + "".join(dressed_word(word) + blanks(1) for word in front) + dressed_word(last) + blanks(0) + "\n"
    return (text[:-1] if rng.random() < 0.3 else text).encode("latin-1")


def some_field(rng, form, near):
    """A word that fits this form in most cases; the number near is one to try."""
    if rng.random() < 0.2:
        return rng.choice(STRAYS)
    if form is HEX:
        return rng.choice([b"", bytes(8), rng.randbytes(9), "0", "0g", "--", "0x00", "000", "-0"])
    if form is CHECK:
        return rng.choice(["ok", "bad", "ok", "bad", "maybe", "okay", "BAD"])
    outside = [max(form.start - 1, 0), form.stop, form.stop + 1]
    return rng.choice([form.start, form.stop - 1, rng.choice(form), near, *outside])


def some_line(rng, uplink):
    """A line that may have any faults: one that is there or a new one, with some words changed."""
    kinds = ["flow"] if len(uplink.flows) == MOST_FLOWS else [kind.decode() for kind in FORMS]
    kind, *words = rng.choice(uplink.lines) if uplink.lines and rng.random() < 0.5 else [rng.choice(kinds)]
    form = rng.choice(FORMS[kind.encode()])
    if len(words) != len(form):
        words = [some_field(rng, one, len(uplink.flows)) for one in form]
    for place, one in enumerate(form):
        if rng.random() < 0.25:
            words[place] = some_field(rng, one, rng.choice([len(uplink.flows), len(uplink.flows) - 1]))
    if rng.random() < 0.15:
        words = rng.choice([words[:-1], words[1:], words + ["0"], words + ["#", "x"], words * 2, []])
    return [rng.choice(FIRST_WORDS) if rng.random() < 0.08 else kind, *words]


def faulty_text(rng, uplink):
    lines = list(uplink.lines)
    for _ in range(rng.choice([1, 1, 2])):
        line = some_line(rng, uplink)
        inputs = [place for place, other in enumerate(lines) if other[0] not in ("flow", "sid")]
        places = [0, len(lines), rng.randrange(len(lines) + 1), min(inputs, default=0), min(inputs, default=0)]
        lines.insert(rng.choice(places), line)
    return dressed_text(rng, lines) if rng.random() < 0.3 else plain_text(lines)


def edited_text(rng, text):
    """A text with some bytes put in, taken out or replaced."""
    for _ in range(rng.choice([1, 1, 2, 9])):
        place = rng.randrange(len(text) + 1)
        text = text[:place] + bytes(rng.choices(BYTES, k=rng.randrange(3))) + text[place + rng.randrange(3) :]
    return text


def some_words(rng):
    """Lines of any words."""
    words = [*FIRST_WORDS, *STRAYS, *(kind.decode() for kind in FORMS), *map(str, range(5))]
    return plain_text([rng.choices(words, k=rng.randrange(6)) for _ in range(rng.randrange(5))])


def some_trace(rng):
    """A text, and its flows where it is lawful."""
    kinds = dict(plain=36, dressed=8, dealt=30, faulty=16, front=3, edited=3, words=2, bytes=2)
    kind = rng.choices(list(kinds), kinds.values())[0]
    if kind == "dealt":
        return some_dealt_trace(rng)
    if kind == "bytes":
        return rng.choice([rng.randbytes(rng.randrange(40)), bytes(rng.choices(BYTES, k=rng.randrange(40)))]), []
    if kind == "words":
        return some_words(rng), []
    uplink = Uplink(rng, 0.1 if kind == "faulty" else 0.01)
    uplink.add_inputs(rng.choice([0, 5, 20, 40, 60, 90]))
    if kind == "faulty":
        return faulty_text(rng, uplink), []
    if kind == "dressed":
        return dressed_text(rng, uplink.lines), uplink.flows
    text = plain_text(uplink.lines)
    if kind == "front":
        return text[: rng.randrange(len(text) + 1)], []
    if kind == "edited":
        return edited_text(rng, text), []
    return text, uplink.flows


def some_small_trace(rng):
    """A lawful text of few items."""
    uplink = Uplink(rng, 0)
    uplink.add_inputs(rng.choice([4, 10, 16, 24, 32]))
    return plain_text(uplink.lines)


def some_calm_trace(rng):
    """A lawful text whose items may come in any order of the senders, most likely."""
    uplink = Uplink(rng, 0.05, calm=True)
    uplink.add_inputs(rng.choice([20, 60, 100, 300]))
    return plain_text(uplink.lines)


def some_dealt_trace(rng, most=60):
    """A lawful text of flows whose segments are dealt over channels, and its flows."""
    flows = [DealtFlow(rng, index, rng.randrange(1, most)) for index in range(rng.choice([1, 1, 2]))]
    lines = [["flow", flow.index + 7, flow.first, flow.window, rng.randrange(1, 9)] for flow in flows]
    lines += [["sid", channel, flow.index, flow.index] for flow in flows for channel in flow.queues]
    coming = [flow.lines() for flow in flows]
    while coming:
        one = rng.choice(coming)
        more = next(one, None)
        if more is None:
            coming.remove(one)
        else:
            lines += more
    return plain_text(lines), flows


def some_small_dealt_trace(rng):
    return some_dealt_trace(rng, 14)[0]


def a_window_of_all_numbers(rng):
    """As many segments as a window holds, in any order, on all channels, each with a frame and most
    with a request."""
    lines = [["flow", 7, 8190, AHEAD, 8], *(["sid", channel, 5, 0] for channel in range(CHANNELS))]
    for at, index in enumerate(rng.sample(range(AHEAD), AHEAD)):
        words = [0x8000, (8190 + index) % MODULUS << 3 | at % 8, at % 5, 0]
        segment = header_of(words) + some_frame(rng)
        channel = rng.randrange(CHANNELS)
        lines += [["grant", channel, at, 5, len(segment)], ["burst", channel, at, "ok", segment]]
    return plain_text(lines)


def numbers_that_go_round(rng):
    """A flow of more segments than there are numbers, almost in order, on all channels."""
    lines = [["flow", 7, 8190, 60, 4], *(["sid", channel, 5, 0] for channel in range(CHANNELS))]
    sent = sorted((index + 6 * rng.random(), index) for index in range(8600) if rng.random() < 0.98)
    for at, (_, index) in enumerate(sent):
        number = (8190 + index + rng.choice([0] * 50 + [-1, -9, 9, 60, 4000])) % MODULUS
        words = [0x8000, number << 3 | at % 8, at % 3, 0]
        segment = header_of(words) + some_frame(rng)
        channel, grant = rng.randrange(CHANNELS), at % 10
        lines += [["grant", channel, grant, 5, len(segment)], ["burst", channel, grant, "ok", segment]]
        if at % 10 == 0:
            lines.append(["gap", 0] + rng.choice([[], [(number - 8) % MODULUS], [(number - 8) % MODULUS]]))
    return plain_text(lines)


def as_many_grants_as_may_be():
    """All that can be answered to a grant and a burst while the most grants are outstanding."""
    lines = [["flow", 0, 0, 16, 1], ["sid", 2, 1, 0]] + [["grant", 2, number, 1, 8] for number in range(MOST_GRANTS)]
    new = MOST_GRANTS
    lines += [["grant", 2, new, 1, 8], ["grant", 2, new, 2, 8], ["grant", 2, 5, 2, 8], ["grant", 2, 5, 1, 7]]
    lines += [["burst", 2, new, "ok", b""], ["burst", 2, 5, "ok", bytes(8)], ["grant", 2, new, 1, 8], ["grant", 2, 5, 1, 8]]
    lines += [["burst", 2, new, "bad", b""], ["grant", 2, 5, 1, 8], ["grant", 2, new, 1, 8], ["grant", 1, 5, 1, 8]]
    return plain_text(lines)


def fixed_traces(rng):
    short = [b"", b"\n", b"\r", b"#", b"gap", b" \t\r\n\n# x\n", b"flow 1 0 16 1", b"\x00"]
    return [numbers_that_go_round(rng), as_many_grants_as_may_be(), *short]
