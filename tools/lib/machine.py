"""The caches of this machine, as Linux tells them: those of the first level, and the last level,
which is l2-u, as Cachegrind takes them."""

import collections
import glob

from lib import tool

FOLDER = "/sys/devices/system/cpu/cpu0/cache"
MOST_LINES = 1 << 22  # of a cache of cachesim
KINDS = {"Data": "d", "Instruction": "i", "Unified": "u"}


class Cache(collections.namedtuple("Cache", "name level block sets ways")):
    """A cache of a machine, by the name that it has in cachesim, and its level there."""

    def options(self):
        for what, number in (("bsize", self.block), ("sets", self.sets), ("assoc", self.ways)):
            yield from (f"-{self.name}{what}", str(number))

    def text(self):
        size = tool.size_text(self.block * self.sets * self.ways)
        return f"{size}, {self.sets} sets of {self.ways} ways, blocks of {self.block} bytes"

    def simulated(self):
        """The one that cachesim can have in its place: with the next smaller power of two of sets,
        and more ways, so that it is as large or nearly, as Cachegrind takes it; with fewer sets
        where there would be too many lines."""
        sets = 1 << self.sets.bit_length() - 1
        ways = self.sets * self.ways // sets
        while sets * ways > MOST_LINES:
            sets //= 2
        return self._replace(sets=sets, ways=ways)

    def told(self):
        """What is simulated, and why, if it is another cache."""
        taken = self.simulated()
        line = f"{self.name}  {taken.text()} (L{self.level})"
        if taken == self:
            return line
        return (f"{line},\n      instead of {self.text()}:\n      cachesim takes a power of two "
                f"of sets, and up to {MOST_LINES:,} lines")


def told(path):
    """What a file of Linux tells, or nothing."""
    try:
        with open(path, encoding="ascii") as file:
            return file.read().strip()
    except OSError:
        return ""


def found_in(folder):
    """The level, the kind, and the block size, sets and ways of each cache that is told whole."""
    for place in sorted(glob.glob(f"{glob.escape(folder)}/index*")):
        level, *shape = (tool.number_of(told(f"{place}/{name}")) or 0 for name in (
            "level", "coherency_line_size", "number_of_sets", "ways_of_associativity"))
        kind = KINDS.get(told(f"{place}/type"))
        if kind and all(shape):
            yield level, kind, shape


def caches(folder=FOLDER):
    """Those of the first level, and the last level behind them."""
    all_of_them = list(found_in(folder))
    first = [(f"l1-{letter}", 1, *shape) for level, letter, shape in all_of_them if level == 1]
    behind = [(level, shape) for level, letter, shape in all_of_them if level > 1 and letter == "u"]
    last = [("l2-u", level, *shape) for level, shape in sorted(behind)[-1:]]
    if not first:
        tool.fail(f"{folder} tells of no cache: give some, such as -l1-dsize 32k -l1-dbsize 64 "
                  "-l1-dassoc 8")
    return [Cache(*one) for one in [*first, *last]]
