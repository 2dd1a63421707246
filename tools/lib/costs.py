"""What the misses of a sweep's caches cost, which the block size has a part in."""

import functools
import re
from argparse import ArgumentTypeError
from fractions import Fraction

from lib import table, tool

TRAFFIC, MISS_TRAFFIC, ACCESS_TIME = "traffic", "miss-traffic", "AMAT"
NUMBER = "([0-9]{1,9}(?:[.][0-9]{1,9})?)"
HIT = 1  # cycles of a hit


def miss_cost(text):
    """The cycles that a miss takes, exactly, and those of each byte of its block more, as A, A+B or
    A+B/N says: A cycles, and B for each byte, or for each N bytes."""
    match = re.fullmatch(rf"{NUMBER}(?:[+]{NUMBER}(?:/0*([1-9][0-9]{{0,8}}))?)?", text)
    if not match:
        raise ArgumentTypeError(f"{text!r} is no cost such as 100, 80+0.125 or 80+2/16")
    fixed, more, bytes_of_it = (Fraction(part or 0) for part in match.groups())
    return fixed, more / (bytes_of_it or 1)


def add_to(parser):
    """The option that asks for the access time."""
    parser.add_argument("--miss-cost", metavar="A+B/N", type=miss_cost, help="for a table of a "
                        "sweep, compare the average memory access time (AMAT) instead of misses: 1 "
                        "cycle, and for a miss A cycles and B for each N bytes of its block, or "
                        "without /N for each byte; for example 80+2/16, or 100 whatever the block")


@functools.lru_cache
def cost_of(bsize, cost):
    """The cycles that a miss of a block of this size takes."""
    fixed, of_byte = cost
    return fixed + of_byte * bsize


def column_of(asked):
    """The name of what is asked for."""
    return ACCESS_TIME if asked.miss_cost else asked.measure or "misses"


def is_made(asked, lines):
    """Whether it is made of the block size and the counts, and no column is named so."""
    columns = "".join(lines[:1]).strip().split(",")
    return column_of(asked) in (TRAFFIC, MISS_TRAFFIC) and column_of(asked) not in columns


def name_of(asked, lines):
    """What the answer calls it. Without copybacks traffic is that of the misses alone."""
    has_copybacks = "copybacks" in table.own_columns(lines)
    if is_made(asked, lines) and not has_copybacks:
        return MISS_TRAFFIC
    return column_of(asked)


def rows_of(asked, lines, name):
    """The rows of a sweep's table with what is asked for. A column named so comes before what would
    be made of the block size and the misses."""
    column = column_of(asked)
    if not asked.miss_cost and not is_made(asked, lines):
        return table.read_table(lines, name, column)

    def made(row):
        if asked.miss_cost:  # the cycles of a reference in the mean
            each, references = cost_of(row.bsize, asked.miss_cost), max(1, row.references)
            return HIT + Fraction(row.misses * each.numerator, references * each.denominator)
        # the bytes that misses bring in and, if the name says no other, copybacks carry out
        copybacks = row.more[-1] if row.more and column == TRAFFIC else 0
        return row.bsize * (row.misses + copybacks)

    return [row._replace(value=made(row), is_count=False)
            for row in table.read_table(lines, name)]


def judge(asked):
    """Refuses two measures at once."""
    if asked.miss_cost and asked.measure:
        tool.misused("--miss-cost is not allowed with --measure")


def refuse_din(asked):
    """The block sizes of a table of din are those of several caches."""
    if asked.miss_cost:
        tool.fail(f"{asked.table}: --miss-cost is for a table of a sweep; a table of din wants a "
                  "column of its own, named by --measure")
