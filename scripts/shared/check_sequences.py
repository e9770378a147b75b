"""Check sequences of headers and of Ethernet frames, as a division of polynomials leaves them.

The standards have it so: the bits of the message as they are sent are coefficients, the highest
power of x first; as many zeros as the degree of the generator follow, and as many coefficients are
inverted from the first on; the remainder is inverted. A generator is its degree and its powers of
x.
"""

import functools
import zlib

HEADER = 16, (16, 12, 5, 0)
FRAME = 32, (32, 26, 23, 22, 16, 12, 11, 10, 8, 7, 5, 4, 2, 1, 0)


def check_sequence(message, degree, powers):
    """The check sequence as a number whose bits are sent from the lowest on."""
    bits = [byte >> place & 1 for byte in message for place in range(8)]
    # A polynomial is a number here, and the bit of weight 2^k is the coefficient of x^k.
    dividend = int("0" + "".join(map(str, bits)), 2) << degree
    dividend ^= (1 << degree) - 1 << len(bits)
    generator = sum(1 << power for power in powers)
    for place in reversed(range(len(bits))):
        if dividend >> place + degree & 1:
            dividend ^= generator << place
    sent = f"{dividend ^ (1 << degree) - 1:0{degree}b}"
    return int(sent[::-1], 2)


@functools.lru_cache(1 << 16)
def header_sequence(header):
    """The two bytes that follow a header, of a frame or of a segment."""
    return check_sequence(header, *HEADER).to_bytes(2, "little")


def frame_sequence(frame):
    """The four bytes that follow an Ethernet frame. A division takes long for many bytes, so this
    is the library's, which scripts/plain-checks compares with it."""
    return zlib.crc32(frame).to_bytes(4, "little")


def ends_with_header_sequence(header):
    return len(header) >= 2 and header_sequence(bytes(header[:-2])) == header[-2:]


def ends_with_frame_sequence(frame):
    return len(frame) >= 4 and frame_sequence(frame[:-4]) == frame[-4:]
