"""What a frame costs while the flows of a list are told: as much where the list has one range as
where it has thousands and the flow stands in the last.
"""

from shared.marginal_cost import of_one_more

# The lists: the flow alone, and as many ranges as a list of every other flow has, the flow in the
# last of them.
FLOW, LISTS = 0, {"one range": "0", "8,192 ranges": ",".join(str(flow) for flow in range(16382, -1, -2))}
FEW, MANY = 500, 1500


def trace(frames):
    """A trace of one flow, each frame of 8 bytes a segment with a grant."""
    yield b"flow 1 0 16 1\nsid 0 1 0\n"
    for number in range(frames):
        header = f"8000{number % 8192 << 3:04x}00000000"
        yield f"grant 0 {number} 1 16\nburst 0 {number} ok {header}000000021111aabb\n".encode()


def has_frames(text, frames):
    return text.count(b"frame 0 ") == frames


def measured_lists(segrx, room):
    """How many instructions a frame takes, by the list. What reading the list takes is left out."""
    words = {name: ["follow", "--flows", flows] for name, flows in LISTS.items()}
    return {name: of_one_more(segrx, asked, FEW, MANY, trace, has_frames, room) for name, asked in words.items()}
