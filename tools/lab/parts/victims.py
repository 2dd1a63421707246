"""Ways to choose the block that is evicted from a full set."""

import ctypes

# the block with the least of these is evicted
KEYS = {
    "used": lambda line: (line.used, line.place),
    "used, last": lambda line: (line.used, -line.place),
    "came": lambda line: line.came,
    "latest": lambda line: (-line.used, line.place),
    "rarest": lambda line: (line.uses, line.place),
    "rarest, oldest": lambda line: (line.uses, line.used),
    "rarest, last": lambda line: (line.uses, -line.place),
    "most often": lambda line: (-line.uses, line.place),
    "newest": lambda line: -line.came,
    "first": lambda line: line.place,
    "last": lambda line: -line.place,
    "lowest tag": lambda line: line.tag,
    "highest tag": lambda line: -line.tag,
}


def last_of(places):
    return max(places, default=0)


def oldest_of(uses, places):
    return min(places, key=uses.__getitem__, default=0)


# the numbers of rand(): without srand() they are those after srand(1)
LIBC, DRAWN = ctypes.CDLL(None), []
LIBC.srand(1)


def drawn(at):
    """The number that the call after so many others returns."""
    while len(DRAWN) <= at:
        DRAWN.append(LIBC.rand())
    return DRAWN[at]


# the place of the block that is evicted, by the last uses of a set's blocks from the first line on
PLACES = {
    "last older than first": lambda uses: last_of(
        at for at, used in enumerate(uses) if used < uses[0]),
    "first older than first": lambda uses: next(
        (at for at, used in enumerate(uses) if used < uses[0]), 0),
    "older than the one before": lambda uses: last_of(
        at for at in range(1, len(uses)) if uses[at] < uses[at - 1]),
    "not first": lambda uses: oldest_of(uses, range(1, len(uses))),
    "not last": lambda uses: oldest_of(uses, range(len(uses) - 1)),
}
# the same by what was counted before
COUNTED = {
    "turn": lambda cache, index: cache.turn(),
    "accesses": lambda cache, index: cache.now(index),
    "misses": lambda cache, index: cache.misses,
    "evictions": lambda cache, index: cache.evictions + 1,
    "rand": lambda cache, index: drawn(cache.turn()),
}
