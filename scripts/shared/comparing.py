"""Compares the program with a plain reading of its answers, on many inputs and several at once."""

import collections
import itertools
import multiprocessing
import sys

from shared import arguments


def read_arguments(head, count, jobs, what="trace", add_more=None):
    """The arguments of a comparison, and those that `add_more` adds to the parser."""
    parser = arguments.parser(head)
    arguments.add_count(parser, count, f"how many {what}s are generated")
    arguments.add_seed(parser, 1)
    arguments.add_jobs(parser, jobs, f"how many {what}s are compared at once")
    if add_more is not None:
        add_more(parser)
    return parser.parse_args()


def compare_all(label, given, compare_fixed, fixed, compare_generated, generated, what="trace"):
    """Compares fixed and generated inputs, each by such a function, which returns the input's name
    and either what is wrong or what the input shows. Returns the sum of what they show."""
    seen = collections.Counter()
    with multiprocessing.Pool(given.jobs) as pool:
        of_fixed, of_generated = pool.imap(compare_fixed, fixed), pool.imap(compare_generated, generated, 20)
        for name, shown in itertools.chain(of_fixed, of_generated):
            if isinstance(shown, str):
                sys.exit(f"{label}: {what} {name} of seed {given.seed}: {shown}")
            seen += shown
    return seen


def print_seen(label, seen, names, is_whole):
    """Prints what was seen, by these names. Where the comparison is whole all have to be there."""
    unseen = [name for name in names if not seen[name]]
    if unseen and is_whole:
        sys.exit(f"{label}: the inputs show none of {unseen}")
    print(f"{label}: " + ", ".join(f"{seen[name]} {name}" for name in names) + ": all agree")
