"""The arguments of scripts and benches: an option has one name wherever it stands."""

import argparse
import os

GIB_A_CHECK = 5


def parser(head):
    """A parser, whose help is the head of the script."""
    return argparse.ArgumentParser(description=head, formatter_class=argparse.RawDescriptionHelpFormatter)


def add_count(to, default, what):
    to.add_argument("--count", type=int, default=default, metavar="N", help=f"{what}; {default:,} if left out")


def add_seed(to, default):
    what = f"the seed of what is chosen by chance; {default} if left out"
    to.add_argument("--seed", type=int, default=default, metavar="N", help=what)


def add_size(to, default, what):
    to.add_argument("--size", type=int, default=default, metavar="MIB", help=f"{what}, in MiB; {default} if left out")


def add_jobs(to, default, what):
    to.add_argument("--jobs", type=int, default=default, metavar="N", help=f"{what}; here {default} if left out")


def add_crates(to):
    to.add_argument("crates", nargs="*", metavar="CRATE", help="all crates where none is named")


def of_bench(head, count, size=None):
    """The arguments of a bench: how often all is measured and, where it reads a text, its size."""
    to = parser(head)
    add_count(to, count, "how often everything is measured")
    if size is not None:
        add_size(to, size, "the size of the text")
    return to.parse_args()


def processors():
    return len(os.sched_getaffinity(0))


def checks_at_once():
    """How many checks memory and processors have room for."""
    memory = os.sysconf("SC_PAGE_SIZE") * os.sysconf("SC_PHYS_PAGES") >> 30
    return max(1, min(processors(), memory // GIB_A_CHECK))
