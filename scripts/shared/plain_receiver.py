"""A plain, slow reading of what `segrx replay` answers: of traces, of what a channel admits, and of
reports.

The joining of segments, what becomes of a flow's segments and the rule by which some are lost are
in plain_reading.py, and what `segrx run` may answer in plain_orders.py.
"""

import collections
import re
import sys

from shared.plain_reading import DECIDED, RuledFlow, header

CHANNELS, MOST_FLOWS, MOST_GRANTS = 4, 64, 65536
DECISION = 4
# What a word of a line may be: a number of a range, one of some words, or bytes in hexadecimal.
UNITS_32, SID, NUMBER = range(1 << 32), range(1 << 14), range(8192)
CHECK = {b"ok": True, b"bad": False}
HEX = re.compile(rb"-|([0-9A-Fa-f][0-9A-Fa-f])+")


def forms_of(channels, flows):
    """The words that may follow the first of a line, with so many channels and flows."""
    channel, flow = range(channels), range(flows)
    return {
        b"flow": [[UNITS_32, NUMBER, range(1, 4097), range(1, 9)]],
        b"sid": [[channel, SID, flow]],
        b"grant": [[channel, UNITS_32, SID, UNITS_32]],
        b"burst": [[channel, UNITS_32, CHECK, HEX]],
        b"gap": [[flow], [flow, NUMBER]],
    }


FORMS = forms_of(CHANNELS, MOST_FLOWS)
# Of several faults of a line the first of these is told.
FAULTS = [
    *["unknown line", "setup after input", "wrong number of fields", "bad number", "not ok or bad", "not hexadecimal"],
    *["unknown flow", "too many flows", "flow given before", "sid given before"],
]

Grant = collections.namedtuple("Grant", "number sid bytes")
Burst = collections.namedtuple("Burst", "number check segment")
# A number has as many digits as its writer likes.
sys.set_int_max_str_digits(0)


class Trace:
    """What the lines of a trace give, which may have so many channels and flows."""

    def __init__(self, channels=CHANNELS, flows=MOST_FLOWS):
        self.forms, self.most_flows = forms_of(channels, flows), flows
        self.flows = []  # sfid, first number, window and clusters
        self.sids = {}  # the flow of a channel and a SID
        self.inputs = [[] for _ in range(channels)]
        self.decisions = []  # the flow, and the number up to which it is meant or None
        self.tags = []  # the channel of each input line, or DECISION

    def add(self, kind, values):
        if kind == b"flow":
            self.flows.append(values)
        elif kind == b"sid":
            channel, sid, flow = values
            self.sids[channel, sid] = flow
        elif kind == b"gap":
            self.decisions.append((values + [None])[:2])
            self.tags.append(DECISION)
        else:
            channel, *rest = values
            self.inputs[channel].append(Grant(*rest) if kind == b"grant" else Burst(*rest))
            self.tags.append(channel)

    def channels_of(self, flow):
        """The channels on which a line gives the flow a SID."""
        return sorted({channel for (channel, _), other in self.sids.items() if other == flow})

    def new_flow(self, flow, rule):
        """The flow with this index, to which nothing has come yet."""
        return FlowOutcome(self.flows[flow], rule, self.channels_of(flow))


class LineFault(Exception):
    def __init__(self, place, faults):
        super().__init__(f"line {place}: {min(faults, key=FAULTS.index)}")
        self.faults = faults


def value_of(form, word):
    """What a word says, or None where it isn't of its form."""
    if form is HEX:
        return bytes.fromhex(word.decode().strip("-")) if HEX.fullmatch(word) else None
    if form is CHECK:
        return CHECK.get(word)
    number = int(word) if re.fullmatch(rb"[0-9]+", word) else -1
    return number if number in form else None


def fault_of_form(form):
    return "not hexadecimal" if form is HEX else "not ok or bad" if form is CHECK else "bad number"


def faults_in_setup(trace, kind, values):
    """The faults of a line whose words are of their forms."""
    if kind == b"flow":
        if len(trace.flows) == trace.most_flows:
            yield "too many flows"
        if any(values[0] == earlier[0] for earlier in trace.flows):
            yield "flow given before"
    if kind == b"sid" and (values[0], values[1]) in trace.sids:
        yield "sid given before"
    if (kind == b"sid" and values[2] >= len(trace.flows)) or (kind == b"gap" and values[0] >= len(trace.flows)):
        yield "unknown flow"


def read_line(trace, kind, words):
    """The values of a line after those that gave the trace, and its faults: all of them that can be
    seen."""
    if kind not in trace.forms:
        return [], {"unknown line"}
    late = {"setup after input"} if kind in (b"flow", b"sid") and trace.tags else set()
    form = next((form for form in trace.forms[kind] if len(form) == len(words)), None)
    if form is None:
        return [], late | {"wrong number of fields"}
    values = [value_of(*pair) for pair in zip(form, words)]
    wrong = {fault_of_form(form[k]) for k, value in enumerate(values) if value is None}
    return values, late | (wrong or set(faults_in_setup(trace, kind, values)))


def worded_lines(text):
    """The lines of a text that aren't skipped, each with its number, its first word and those that
    follow."""
    for place, line in enumerate(text.split(b"\n"), 1):
        words = [word for word in re.split(rb"[ \t\r]", line) if word]
        if words and not words[0].startswith(b"#"):
            yield place, words[0], words[1:]


def read_trace(text):
    """The trace that a text is. The first faulty line is raised."""
    trace = Trace()
    for place, kind, words in worded_lines(text):
        values, faults = read_line(trace, kind, words)
        if faults:
            raise LineFault(place, faults)
        trace.add(kind, values)
    return trace


class Lane:
    """The inputs of a channel, in order, each with its answer: ACCEPTED for a grant, ADMITTED for a
    burst, or the number of the refusal, which is the first that fits."""

    ACCEPTED, ADMITTED = "accepted", "admitted"
    GRANT_RANGE, GRANT_KNOWN, UNKNOWN_SID, TOO_MANY_GRANTS = 1, 2, 3, 4
    NO_GRANT, TOO_LONG, BAD_CHECK, TOO_SHORT, POINTER_PAST = 6, 7, 8, 9, 10

    def __init__(self, channel, trace):
        self.channel, self.sids, self.flows = channel, trace.sids, trace.flows
        self.answers = []
        # The same by the grant's number, since the inputs of others say nothing of a number.
        self.inputs_of = collections.defaultdict(list)
        for one in trace.inputs[channel]:
            self.take(one)

    def take(self, one):
        """The answer to an input more, which is noted."""
        answer = self.answer_to_grant(one) if isinstance(one, Grant) else self.answer_to_burst(one)
        # With the grant before this input.
        self.answers.append((one, answer, self.outstanding(one.number)))
        self.inputs_of[one.number].append((one, answer))
        return answer

    def outstanding(self, number):
        """The grant of this number that was accepted and behind which no burst on it was admitted
        or refused, but for want of a grant."""
        for one, answer in reversed(self.inputs_of[number]):
            if answer == self.ACCEPTED:
                return one
            if answer in (self.ADMITTED, self.TOO_LONG, self.BAD_CHECK, self.TOO_SHORT, self.POINTER_PAST):
                return None
        return None

    def is_full(self):
        """Whether as many grants are outstanding as may be, which takes as many inputs."""
        if len(self.answers) < MOST_GRANTS:
            return False
        return sum(self.outstanding(number) is not None for number in list(self.inputs_of)) >= MOST_GRANTS

    def answer_to_grant(self, grant):
        if not 8 <= grant.bytes <= 65535:
            return self.GRANT_RANGE
        if self.outstanding(grant.number) is not None:
            return self.GRANT_KNOWN
        if (self.channel, grant.sid) not in self.sids:
            return self.UNKNOWN_SID
        return self.TOO_MANY_GRANTS if self.is_full() else self.ACCEPTED

    def answer_to_burst(self, burst):
        grant = self.outstanding(burst.number)
        if grant is None:
            return self.NO_GRANT
        if len(burst.segment) > grant.bytes:
            return self.TOO_LONG
        if not burst.check:
            return self.BAD_CHECK
        if len(burst.segment) < 8:
            return self.TOO_SHORT
        head = header(burst.segment)
        return self.POINTER_PAST if head.pfi and head.pointer >= len(burst.segment) - 8 else self.ADMITTED

    def admitted(self):
        """For each input what it admits: the flow and the segment, or None."""
        for one, answer, grant in self.answers:
            yield (self.sids[self.channel, grant.sid], one.segment) if answer == self.ADMITTED else None

    def requests(self):
        for flow, segment in filter(None, self.admitted()):
            head = header(segment)
            if head.request and head.cluster < self.flows[flow][3]:
                yield flow, head.cluster, head.request, head.number

    def refused(self):
        return [answer for _, answer, _ in self.answers if answer not in (self.ACCEPTED, self.ADMITTED)]


def report_of_lanes(lanes):
    """The lines of a report behind those of the flows."""
    for lane in lanes:
        for request in lane.requests():
            yield f"request {lane.channel} {' '.join(map(str, request))}"
    for lane in lanes:
        admitted = sum(item is not None for item in lane.admitted())
        yield f"lane {lane.channel} admitted {admitted} refused {' '.join(map(str, lane.refused())) or '-'}"


class FlowOutcome:
    """A flow with the events of its items in some order and then its close."""

    def __init__(self, record, rule, channels):
        self.sfid, first, window, _ = record
        self.flow = RuledFlow(first, window, rule, channels)
        self.verdicts = dict(kept=0, late=0, repeat=0, beyond=0)
        self.gaps = [0, 0]  # how many decisions declared nothing, and how many declared something
        self.frames, self.skipped = [], 0

    def take(self, sender, what):
        """Takes an item: a segment from a channel, or the number that a decision is up to."""
        if sender == DECISION:
            self.gaps[self.flow.gap(what)] += 1
        else:
            self.verdicts[self.flow.come(sender, what)] += 1

    def close(self):
        while self.flow.gap():
            pass
        self.frames, unfinished = self.flow.joined()
        payload_bytes = sum(len(segment) - 8 for segment in self.flow.kept.values())
        self.skipped = payload_bytes - sum(map(len, self.frames)) - len(unfinished)

    def counts(self):
        counts = {**self.verdicts, "lost": len(self.flow.declared)}
        counts |= {"frames": len(self.frames), "skipped": self.skipped}
        return " ".join(f"{name} {count}" for name, count in counts.items())

    def report(self, index):
        yield f"flow {index} {self.sfid} {self.counts()}"
        for frame in self.frames:
            yield f"frame {index} {frame.hex()}"


class Outcome:
    """What comes of a trace whose lines are taken in their order, by this rule."""

    def __init__(self, trace, rule):
        self.trace = trace
        self.lanes = [Lane(channel, trace) for channel in range(CHANNELS)]
        self.flows = [trace.new_flow(flow, rule) for flow in range(len(trace.flows))]
        items = [lane.admitted() for lane in self.lanes] + [iter(trace.decisions)]
        for tag in trace.tags:
            item = next(items[tag])
            if item is not None:
                self.flows[item[0]].take(tag, item[1])
        for flow in self.flows:
            flow.close()

    def report(self):
        for index, flow in enumerate(self.flows):
            yield from flow.report(index)
        yield from report_of_lanes(self.lanes)


def text_of(lines):
    return "".join(line + "\n" for line in lines).encode()


def replay(text, rule=DECIDED):
    """What the program has to answer to a text by this rule: its standard output, its standard
    error and its exit status. The outcome, or the line's fault, stands behind them."""
    try:
        outcome = Outcome(read_trace(text), rule)
    except LineFault as fault:
        return b"", f"segrx: {fault}\n".encode(), 1, fault
    return text_of(outcome.report()), b"", 0, outcome
