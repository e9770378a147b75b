"""A plain, slow reading of what `segrx run` may answer to a trace. Each channel and the decisions
have a sender of their own, whose items are taken in its order; what is taken first of different
senders is left to the schedule. So each merge of the senders' items is a lawful order, and a report
is lawful that one of them gives.

What a channel admits, refuses and requests is the same in all of them. So is what a flow gives
whose items come from one sender, or whose segments each have one verdict wherever they come. For
the other flows all merges are tried, and where two of them stand alike after the same items they
are followed once.
"""

import itertools
import math

from shared.plain_reading import AHEAD, DECIDED, MODULUS, header
from shared.plain_receiver import CHANNELS, DECISION, report_of_lanes, text_of

SENDERS = range(DECISION + 1)
# More standings than this aren't followed.
MOST_STANDINGS = 1500


def items_of_senders(trace, lanes):
    """The items of each sender: a flow, and a segment or the number that a decision is up to."""
    return [[item for item in lane.admitted() if item is not None] for lane in lanes] + [list(map(tuple, trace.decisions))]


def has_one_verdict_each(first, window, segments):
    """Whether each of these segments, with no decision among them, has the same verdict wherever it
    comes. Those of different numbers inside the window of the first number are kept: the window
    moves on over kept ones alone, so that such a number is passed only once it has come. Its front
    then is `passed` further at most, and what lies behind or beyond both the first and the last of
    these windows is late or beyond."""
    offsets = [(header(segment).number - first) % MODULUS for segment in segments]
    far = [offset for offset in offsets if offset >= window]
    near = {offset for offset in offsets if offset < window}
    passed = next(offset for offset in itertools.count() if offset not in near)
    stay_far = all(offset >= AHEAD + passed or window + passed <= offset < AHEAD for offset in far)
    return stay_far and len(near) + len(far) == len(offsets)


def are_all_kept(first, window, lanes):
    """Whether each of these segments of channels, with no decision among them, is kept by any rule
    wherever it comes: they have different numbers inside the window of the first number, and those
    of a channel come in their order, so that no rule loses one that comes."""
    offsets = [[(header(segment).number - first) % MODULUS for segment in lane] for lane in lanes]
    flat = [offset for lane in offsets for offset in lane]
    return all(lane == sorted(lane) for lane in offsets) and len(set(flat)) == len(flat) and max(flat) < window


def is_settled(record, rule, items, flow):
    """Whether this flow's part of the report is the same in every order."""
    own = [[what for index, what in of_sender if index == flow] for of_sender in items]
    if sum(map(bool, own)) <= 1:
        return True
    if own[DECISION]:
        return False
    _, first, window, _ = record
    lanes = own[:CHANNELS]
    if rule == DECIDED:
        return has_one_verdict_each(first, window, [segment for lane in lanes for segment in lane])
    return are_all_kept(first, window, lanes)


def with_other(thing, **fields):
    """A thing like this one but for these fields: `copy.copy` takes three times as long."""
    one = object.__new__(type(thing))
    one.__dict__ = {**thing.__dict__, **fields}
    return one


def copied(outcome):
    """The outcome of a flow that stands as this one does, and goes on by itself."""
    flow = outcome.flow
    own = with_other(flow, kept=dict(flow.kept), declared=set(flow.declared), lasts=dict(flow.lasts))
    return with_other(outcome, flow=own, verdicts=dict(outcome.verdicts), gaps=list(outcome.gaps))


class Standing:
    """How flows stand after some items of each sender, and what is to be told apart of each."""

    def __init__(self, taken, flows, marks):
        self.taken, self.flows, self.marks = taken, flows, marks

    def after(self, sender, item):
        """How they stand after one more item of this sender."""
        index, what = item
        flow = copied(self.flows[index])
        flow.take(sender, what)
        # A last segment behind the expected one is as good as none.
        ahead = {it: last for it, last in flow.flow.lasts.items() if last is not None and last >= flow.flow.expected}
        fates = frozenset(flow.flow.kept.items()), frozenset(flow.flow.declared)
        mark = *fates, frozenset(ahead.items()), tuple(flow.verdicts.values())
        taken = tuple(count + (other == sender) for other, count in enumerate(self.taken))
        return Standing(taken, {**self.flows, index: flow}, {**self.marks, index: mark})

    def following(self, items):
        for sender in SENDERS:
            if self.taken[sender] < len(items[sender]):
                yield self.after(sender, items[sender][self.taken[sender]])


def standings_in_the_end(trace, rule, items):
    """How the flows of these items may stand once all were taken, or None where that is too long to
    find out."""
    if math.prod(len(of_sender) + 1 for of_sender in items) > MOST_STANDINGS:
        return None
    concerned = sorted({index for of_sender in items for index, _ in of_sender})
    flows = {index: trace.new_flow(index, rule) for index in concerned}
    standings, followed = [Standing((0,) * len(SENDERS), flows, dict.fromkeys(flows))], 0
    for _ in range(sum(map(len, items))):
        after = (one for standing in standings for one in standing.following(items))
        standings = list({(one.taken, tuple(one.marks.values())): one for one in after}.values())
        followed += len(standings)
        if followed > MOST_STANDINGS:
            return None
    return standings


def possible_parts(trace, rule, items):
    """What the flows of these items may report: for each lawful order the lines of each flow. None
    where that is too long to find out."""
    standings = standings_in_the_end(trace, rule, items)
    if standings is None:
        return None
    for standing in standings:
        for flow in standing.flows.values():
            flow.close()
    return {tuple(tuple(flow.report(index)) for index, flow in standing.flows.items()) for standing in standings}


def parts_of(report):
    """The lines of each flow in a report, and those behind them."""
    parts, end = [], []
    for line in report.decode().splitlines():
        if line.startswith("flow "):
            parts.append([line])
        else:
            (parts[-1] if line.startswith("frame ") and parts else end).append(line)
    return list(map(tuple, parts)), tuple(end)


class Answers:
    """What the reports of a trace by a rule may say. `outcome` is that of its lines in order."""

    def __init__(self, trace, rule, outcome):
        items = items_of_senders(trace, outcome.lanes)

        def items_of(flows):
            return [[item for item in of_sender if item[0] in flows] for of_sender in items]

        flows = range(len(trace.flows))
        self.settled = {flow for flow in flows if is_settled(trace.flows[flow], rule, items, flow)}
        self.outcome, self.moving = outcome, [flow for flow in flows if flow not in self.settled]
        # Merges of the items of some flows are those that the merges of all items make of them.
        self.together = possible_parts(trace, rule, items_of(self.moving))
        self.alone = {}
        if self.together is None:
            self.alone = {flow: possible_parts(trace, rule, items_of([flow])) for flow in self.moving}
        self.arrivals = [sum(index == flow for lane in items[:CHANNELS] for index, _ in lane) for flow in flows]

    def are_one(self):
        return self.together is not None and len(self.together) == 1

    def are_known(self):
        return self.together is not None

    def wrong_counts(self, flow, part):
        """Whether the counts of a part can't be those of its flow in any order."""
        words = part[0].split()
        counts = dict(zip(words[3::2], map(int, words[4::2])))
        arrived = counts["kept"] + counts["late"] + counts["repeat"] + counts["beyond"]
        return arrived != self.arrivals[flow] or counts["frames"] != len(part) - 1

    def wrong_in(self, report):
        """What no lawful order gives of a report, or None."""
        parts, end = parts_of(report)
        if text_of([line for part in parts for line in part] + list(end)) != report or len(parts) != len(self.arrivals):
            return "its lines"
        if end != tuple(report_of_lanes(self.outcome.lanes)):
            return "the requests and the lanes"
        for flow in self.settled:
            if parts[flow] != tuple(self.outcome.flows[flow].report(flow)):
                return f"flow {flow}"
        if self.together is not None and tuple(parts[flow] for flow in self.moving) not in self.together:
            return f"flows {self.moving}"
        for flow, possible in self.alone.items():
            if (parts[flow],) not in possible if possible is not None else self.wrong_counts(flow, parts[flow]):
                return f"flow {flow}"
        return None
