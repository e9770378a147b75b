"""Frames as a modem sends them, with right check sequences: those of packets, with Ethernet frames
in them, with extended headers or not, encrypted or not, and those of MAC management messages."""

from shared.check_sequences import frame_sequence, header_sequence
from shared.written_captures import number

PACKET, EXTENDED_PACKET, MANAGEMENT = 0x00, 0x01, 0xC2
RANGING_REQUEST = 4
ADDRESSES = 12  # the bytes of an Ethernet frame that are never encrypted


def mac_frame(control, extended, body):
    front = bytes([control, len(extended)]) + number(len(extended) + len(body), 2) + extended
    return front + header_sequence(front) + body


def ethernet(rng, size):
    """An Ethernet frame of so many bytes, 18 or more, of an experimental type."""
    frame = b"\x02" + rng.randbytes(5) + b"\x02" + rng.randbytes(5) + b"\x88\xb5" + rng.randbytes(size - 18)
    return frame + frame_sequence(frame)


def management_message(destination, source, kind, body):
    """A MAC management message with its frame check sequence, as it stands in a frame."""
    head = destination + source + number(len(body) + 6, 2) + bytes([0, 0, 3, 4, kind, 0])
    return head + body + frame_sequence(head + body)


def management_frame(destination, source, kind, body):
    return mac_frame(MANAGEMENT, b"", management_message(destination, source, kind, body))


def element(kind, value):
    """An element of an extended header."""
    return bytes([kind * 16 + len(value)]) + value


def privacy(rng, encrypts):
    """An element that says whether the packet is encrypted, for one channel or for several."""
    kind, size = rng.choice([(3, 4), (7, 3)])
    value = bytearray(rng.randbytes(size))
    value[1] = value[1] % 128 + 128 * encrypts
    return element(kind, bytes(value))


def extended_header(rng, *elements):
    """These elements among others that say nothing of encryption."""
    others = [element(1, rng.randbytes(3)), element(6, rng.randbytes(1)), element(6, rng.randbytes(2)), element(0, b"")]
    found = [*elements, *rng.sample(others, rng.randrange(3))]
    rng.shuffle(found)
    return b"".join(found) or element(0, b"")


def encrypted(rng, frame):
    """An Ethernet frame whose bytes can't be read but for its addresses."""
    return frame[:ADDRESSES] + rng.randbytes(len(frame) - ADDRESSES)


def with_wrong_sequence(frame):
    return frame[:-1] + bytes([frame[-1] ^ 0x10])


def some_modem_frame(rng, sizes=(18, 60, 64, 64, 72, 90, 128, 200)):
    """A frame with an Ethernet frame of such a size, or one of a message."""
    kind = rng.choices("packet extended clear encrypted message".split(), [60, 8, 8, 16, 8])[0]
    if kind == "message":
        return management_frame(b"\x01\xe0\x2f\x00\x00\x01", b"\x02" + rng.randbytes(5), RANGING_REQUEST, rng.randbytes(4))
    body = ethernet(rng, rng.choice(sizes))
    if kind == "packet":
        return mac_frame(PACKET, b"", body)
    if kind == "extended":
        return mac_frame(EXTENDED_PACKET, extended_header(rng), body)
    extended = extended_header(rng, privacy(rng, kind == "encrypted"))
    return mac_frame(EXTENDED_PACKET, extended, encrypted(rng, body) if kind == "encrypted" else body)


def some_long_frame(rng):
    """A frame of a size as packets have it."""
    return some_modem_frame(rng, (64, 64, 590, 1518))


def some_spoiled_frame(rng):
    """A frame that now and then has a wrong check sequence."""
    frame, chance = some_modem_frame(rng), rng.random()
    if chance < 0.1:
        return with_wrong_sequence(frame)
    if chance < 0.2:
        return frame[:4] + bytes([frame[4] ^ 1]) + frame[5:]
    return frame
