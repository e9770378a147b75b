"""Registrations made by chance: what modems are told of the SIDs of their flows, in messages that
are whole or in parts, as packets of the downstream. Some are damaged or repeated, some let no modem
in, and some change SIDs later."""

import collections
import itertools

from shared.modem_frames import management_frame
from shared.plain_registrations import ADD, DBC_REQ, DELETE, DOWNSTREAM, FLOW_SIDS, REG_RSP_MP, UPSTREAM_FLOW, WITHIN
from shared.written_captures import number, tlv, xra_packet

HEAD_END = bytes.fromhex("001122334455")
DOWNSTREAM_CHANNEL = 1
MOST_VALUE = 255  # bytes of a TLV's value

# A message: for which modem, of which type, the bytes that name it, and its TLVs.
Sent = collections.namedtuple("Sent", "modem kind named tlvs")


def flow_tlv(reference, sfid, sid, policy):
    told = tlv(1, number(reference, 2)) + tlv(2, number(sfid, 4)) + tlv(3, number(sid, 2)) + tlv(16, policy)
    return tlv(UPSTREAM_FLOW, told)


def sid_tlv(told):
    return tlv(WITHIN, tlv(1, number(told.channel, 1)) + tlv(2, number(told.sid, 2)) + tlv(3, number(told.action, 1)))


def sids_tlvs(told):
    """TLVs with these SIDs: those of a flow stand in one, as many clusters as go in."""
    tlvs = b""
    for sfid, of_flow in itertools.groupby(told, lambda one: one.sfid):
        value = head = tlv(1, number(sfid, 4))
        for cluster, of_cluster in itertools.groupby(of_flow, lambda one: one.cluster):
            inside = tlv(WITHIN, tlv(1, number(cluster, 1)) + b"".join(map(sid_tlv, of_cluster)))
            if len(value) + len(inside) > MOST_VALUE:
                tlvs, value = tlvs + tlv(FLOW_SIDS, value), head
            value += inside
        tlvs += tlv(FLOW_SIDS, value)
    return tlvs


def in_parts(rng, message, count):
    """The frames of a message in so many parts, which are cut anywhere."""
    cuts = [0, *sorted(rng.randrange(len(message.tlvs) + 1) for _ in range(count - 1)), len(message.tlvs)]
    for place, (start, end) in enumerate(itertools.pairwise(cuts), 1):
        body = message.named + bytes([count, place]) + message.tlvs[start:end]
        yield management_frame(message.modem, HEAD_END, message.kind, body)


def packet_of(rng, frame):
    return xra_packet(rng.choice(DOWNSTREAM), tlv(DOWNSTREAM_CHANNEL, b"\x01"), frame)


class Modem:
    """A modem, the SIDs that it is told to add to its flows, and the messages that tell it."""

    def __init__(self, rng, index, told):
        self.rng, self.told = rng, told
        self.address = b"\x02\x00" + number(index, 4)
        self.sid = rng.randrange(1, 16384)

    def registration(self):
        """A registration: the TLV 24 of each flow, its TLV 47 behind it or behind those of all."""
        sfids = sorted({one.sfid for one in self.told})
        flows = [flow_tlv(place, sfid, self.sid, self.rng.randbytes(4)) for place, sfid in enumerate(sfids, 1)]
        sids = [sids_tlvs([one for one in self.told if one.sfid == sfid]) for sfid in sfids]
        tlvs = [*flows, *sids] if self.rng.random() < 0.5 else itertools.chain(*zip(flows, sids))
        others = self.rng.choice([b"", tlv(18, b"\x10"), tlv(29, b"\x01") + tlv(3, b"\x01")])
        return Sent(self.address, REG_RSP_MP, number(self.sid, 2) + b"\x00", others + b"".join(tlvs))

    def refusal(self):
        """A registration that doesn't let the modem in, with SIDs that it never gets."""
        told = [one._replace(sid=16383 - one.sid % 64) for one in self.told]
        return Sent(self.address, REG_RSP_MP, number(self.sid, 2) + b"\x02", sids_tlvs(told))

    def change(self, transaction, told):
        return Sent(self.address, DBC_REQ, number(transaction, 2), sids_tlvs(told))


def changed_sid(old, new):
    """That a flow has another SID on a channel from now on."""
    return [old._replace(action=DELETE), old._replace(sid=new, action=ADD)]


def damaged(rng, frame):
    place = rng.randrange(1, len(frame))
    return frame[:place] + bytes([frame[place] ^ 1 << rng.randrange(8)]) + frame[place + 1 :]


def with_strays(rng, message, count, frames):
    """The frames of a message among others that don't make it another one: those of an earlier try,
    of which one is damaged, its last part before the first one, one that is there twice, and one of
    another message of the modem."""
    kind = rng.choice(["again", "early", "twice", "other"])
    if kind == "again":
        return [*frames[: rng.randrange(count)], damaged(rng, rng.choice(frames)), *frames]
    if kind == "early":
        return [frames[-1], *frames]
    place = rng.randrange(count)
    if kind == "twice":
        return [*frames[:place], frames[place], *frames[place:]]
    other = message._replace(named=message.named[:-1] + bytes([message.named[-1] ^ 1]))
    strays = list(in_parts(rng, other, count))[1:]
    return [frames[0], *strays[:1], *frames[1:]]


def dealt_packets(rng, messages, spoils):
    """The packets of messages of different modems: each message's parts in turn, some among strays,
    and all mixed."""
    queues = []
    for message in messages:
        count = rng.choice([1, 1, 2, 2, 3, 5])
        frames = list(in_parts(rng, message, count))
        if rng.random() < spoils:
            frames = with_strays(rng, message, count, frames)
        queues.append(frames)
    while queues:
        queue = rng.choice(queues)
        yield packet_of(rng, queue.pop(0))
        queues = [queue for queue in queues if queue]
