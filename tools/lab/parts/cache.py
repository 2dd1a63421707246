"""The cache that `replay` draws, by its arguments."""

import re
from collections import namedtuple

from parts import tool

MOST_WAYS = 2048  # of all sets that are drawn
MOST_BITS = 20  # the program's limit


class Cache(namedtuple("Cache", "options place sets block ways repl walloc wback digits",
                       defaults=("l", "a", "a", "x"))):
    """A cache, and its options for `cachesim log`, which judges them. Addresses, tags and sets are
    shown in hexadecimal digits, x, or in decimal ones, d."""

    def text(self, number):
        return format(number, self.digits)

    def set_of(self, address):
        return address // self.block % self.sets

    def __str__(self):
        parts = [f"{number_of(self.sets, 'set')} of {number_of(self.ways, 'way')}"]
        parts += [f"blocks of {number_of(self.block, 'byte')}"]
        parts += ["LRU" if self.repl == "l" else "FIFO"]
        parts += ["no write-allocate"] * (self.walloc == "n")
        parts += ["write-through"] * (self.wback == "n")
        return ", ".join(parts)


def number_of(count, name):
    return f"{count:,} {name}{'s' * (count != 1)}"


def set_number(text, is_decimal):
    if not re.fullmatch("[0-9]{1,7}" if is_decimal else "[0-9a-f]{1,5}", text):
        tool.misused(f"--set: {text!r} is no set such as 0 or {28 if is_decimal else '1c'}")
    return int(text, 10 if is_decimal else 16)


def cache_of(given):
    """The cache that the arguments name, and the format of its trace."""
    lab, named = [given.s, given.E, given.b], {}
    for option, value in vars(given).items():
        if option.startswith("l1-") and value is not None:
            named.setdefault(option[:4], {})[option[4:]] = value
    if any(number is not None for number in lab) + len(named) != 1:
        tool.misused("one cache is wanted, by -s, -E and -b or by the options of one first-level "
                     "cache of din")
    if named:
        [(place, values)] = named.items()
        cache, format = cache_of_din(place, values), given.informat or "d"
    else:
        if given.informat:
            tool.misused("-informat belongs to the options of din; with -s, -E and -b the trace is "
                         "a lackey trace")
        cache, format = cache_of_lab(*lab), "l"
    if cache.ways > MOST_WAYS:
        tool.misused(f"a set is drawn with at most {MOST_WAYS:,} ways")
    if given.until == 0:
        tool.misused("--until wants a line from 1 on")
    cache = cache._replace(digits="d" if given.decimal else "x")
    if given.set is not None:
        given.set = set_number(given.set, given.decimal)
        if 0 < cache.sets <= given.set:
            tool.misused(f"there is no set {cache.text(given.set)}: the last one is "
                         f"{cache.text(cache.sets - 1)}")
    return cache, format


def cache_of_lab(set_bits, lines, block_bits):
    if None in (set_bits, lines, block_bits):
        tool.misused("-s, -E and -b are needed")
    if max(set_bits, block_bits) > MOST_BITS:
        tool.misused(f"-s and -b are at most {MOST_BITS}")
    options = ["-l1-dsets", str(1 << set_bits), "-l1-dbsize", str(1 << block_bits)]
    options += ["-l1-dassoc", str(lines)]
    return Cache(options, "l1-d", 1 << set_bits, 1 << block_bits, lines)


def cache_of_din(place, values):
    options = [word for name, value in values.items() for word in (f"-{place}{name}", str(value))]
    block, ways = values.get("bsize", 0), values.get("assoc", 1)
    sets = values.get("sets", values.get("size", 0) // max(1, block * ways))
    chosen = {name: values[name] for name in ("repl", "walloc", "wback") if values.get(name)}
    return Cache(options, place, sets, block, ways, **chosen)
