"""A plain reading of --flows and --shard: which flows are selected, and the lines of a report, or
of what `follow` writes, that are left.
"""


def flows_listed(value):
    """The indexes that a list says, as 0,3,8-15."""
    listed = set()
    for part in value.split(","):
        first, _, last = part.partition("-")
        listed.update(range(int(first), int(last or first) + 1))
    return listed


def selected_by(flows=None, shard=None):
    """Whether the flow with an index is selected, by the value of one of two options or by none."""
    if flows is not None:
        return flows_listed(flows).__contains__
    if shard is not None:
        remainder, count = map(int, shard.split("/"))
        return lambda index: index % count == remainder
    return lambda index: True


def lines_left(text, is_selected):
    """The bytes of a report, or of a trace that is followed, without lines of other flows."""
    return b"".join(line for line in text.splitlines(True) if is_left(line.split(), is_selected))


def is_left(words, is_selected):
    """Whether a line with these words is of no flow, or of one that is selected."""
    words = words[2:] if words[0] == b"line" else words
    return words[0] not in (b"flow", b"frame") or is_selected(int(words[1]))


def some_selection(rng, flows, most=64):
    """Options by chance, and whether they select the flow with an index. So many flows are known
    of, and there may be at most so many."""
    if rng.random() < 0.5:
        count = rng.choice([1, 2, 3, 4, flows + 1, 16384])
        value = f"{rng.randrange(min(count, flows + 2))}/{count}"
        return some_words(rng, "--shard", value), selected_by(shard=value)
    parts = [some_range(rng, min(flows + 2, most)) for _ in range(rng.randrange(1, 4))]
    value = ",".join(parts)
    return some_words(rng, "--flows", value), selected_by(flows=value)


def some_range(rng, bound):
    first, last = sorted(rng.randrange(bound) for _ in range(2))
    return rng.choice([f"{first}", f"{first}-{last}", f"{first:03}-{last}"])


def some_words(rng, option, value):
    return rng.choice([[option, value], [f"{option}={value}"]])
