"""The pixels of a picture in PNG, as a browser writes it: eight bits a colour, with opacity or
without, not interlaced."""

import struct
import zlib

SIGNATURE = b"\x89PNG\r\n\x1a\n"
RGB, RGBA = 2, 6


def chunks(data):
    """The chunks of a file, each with its kind and its bytes."""
    assert data.startswith(SIGNATURE)
    place = len(SIGNATURE)
    while place < len(data):
        size, kind = struct.unpack_from(">I4s", data, place)
        yield kind, data[place + 8 : place + 8 + size]
        place += 12 + size


def nearest(left, up, corner):
    """Which of these three lies nearest to left + up - corner."""
    wanted = left + up - corner
    return min((left, up, corner), key=lambda one: abs(wanted - one))


def unfiltered(filter_kind, line, above, step):
    """The bytes of a line, of which differences to its neighbours are stored."""
    line = bytearray(line)
    for place, one in enumerate(line):
        left = line[place - step] if place >= step else 0
        corner = above[place - step] if place >= step else 0
        up = above[place]
        guess = (0, left, up, (left + up) // 2, nearest(left, up, corner))[filter_kind]
        line[place] = (one + guess) % 256
    return line


def lines_of(data):
    """The lines of a picture from above, each a list of pixels: their red, green and blue."""
    found = list(chunks(data))
    width, height, depth, colours, _, _, interlaced = struct.unpack(">IIBBBBB", found[0][1])
    assert depth == 8 and colours in (RGB, RGBA) and not interlaced
    step = 3 if colours == RGB else 4
    packed = zlib.decompress(b"".join(part for kind, part in found if kind == b"IDAT"))
    above = bytearray(width * step)
    for number in range(height):
        start = number * (width * step + 1)
        above = unfiltered(packed[start], packed[start + 1 : start + 1 + width * step], above, step)
        yield [tuple(above[place : place + 3]) for place in range(0, width * step, step)]
