"""Mistakes that programs for the cache lab often have. Each stands for a simulator that makes it;
`reason` of evidence.py tells which of these count exactly as a student's program did."""

import itertools
from collections import namedtuple

from parts.simulator import short

# mistakes that differ by a number: what is said of them, with {} for it; the numbers, and the usual
# ones, those of types of C, of the addresses of x86-64, of arrays; and whether a number matters in
# a run: else it makes no difference there
Numbered = namedtuple("Numbered", "text numbers usual matters")


def counts_of(bits, is_signed=False):
    return lambda *numbers: tuple(short(number, bits, is_signed) for number in numbers)


def twice(kind):
    return lambda all: [one for one in all for _ in range(1 + (one.kind == kind))]


def as_hexadecimal(number):
    """The value of the digits of a number where they are read by base 16."""
    return int(str(number), 16)


def digit(number, at=0):
    return int(str(number)[at])


def led(text, base):
    """The number that a text begins with, by a base; 0 where it begins with no digit."""
    digits = itertools.takewhile("0123456789"[:base].__contains__, text)
    return int("".join(digits) or "0", base)


def in_base(base, checked):
    """Reads addresses by another base than 16. Only so many of their digits, the first ones, are
    checked: where they are of a higher base, the line is lost."""
    digits = set("0123456789"[:base])
    return lambda all: [one._replace(address=led(one.digits, base)) for one in all
                        if set(one.digits[:checked]) <= digits]


DIGITS = "0123456789"
# the single accesses of a line
KINDS = {"L": "L", "S": "S", "M": "LS"}
MOST_BYTES = 4096  # of an access; a trace may have others


def ends(address, size, b):
    """The first byte of an access, and the last where that is in another block."""
    last = address + size - 1
    return [address, last] if address >> b != last >> b else [address]


def blocks(address, size, b):
    """An address in each block that an access touches."""
    last = address + min(size, MOST_BYTES) - 1 >> b
    return [max(address, block << b) for block in range(address >> b, last + 1)]


def each_byte(address, size, b):
    return range(address, address + min(size, MOST_BYTES))


def past(address, size, b):
    """The first byte of an access, and the one behind it where that is in another block."""
    return [address, address + size] if address >> b != address + size >> b else [address]


def next_too(address, size, b):
    """The first byte of an access, and the same one of the next block where it ends in another."""
    return [address, address + (1 << b)] if len(ends(address, size, b)) > 1 else [address]


def spread(places, order):
    """An access touches these places. For M a load and a store come "each" after the other, or
    "loads" first, or the first place has both and others one of them, "once"."""
    def touched(kind, address, size, b):
        at, kinds = places(address, size, b), KINDS[kind]
        if order == "each":
            return [(one, place) for place in at for one in kinds]
        if order == "loads":
            return [(one, place) for one in kinds for place in at]
        return [*((one, address) for one in kinds), *((kinds[0], place) for place in at[1:])]
    return touched


def from_store(kind, address, size, b):
    """A load as such, and all others as stores."""
    return [(one if kind == "L" else "S", address) for one in KINDS[kind]]


def crossing_counts(kind, address, size, b):
    return [*zip(KINDS[kind], (address, address)),
            *[("miss", 0)] * (len(ends(address, size, b)) - 1)]


def fetch_as(*touched):
    """What is counted for a line with I, here (kind, address)."""
    return {"kinds": "LSMI", "spread": lambda kind, address, size, b: [
        (one, address) for one in KINDS.get(kind, touched)]}


def after_fetch_lost(all):
    return [one for before, one in zip([None, *all], all) if not before or before.kind != "I"]


def after_access_lost(all):
    """Each line that is counted takes the next one with it."""
    found, is_lost = [], False
    for one in all:
        if not is_lost:
            found.append(one)
        is_lost = not is_lost and one.kind != "I"
    return found


def permuted(*order):
    return lambda *counts: tuple(counts[at] for at in order)


ROOM = 8, 16, 32, 64
# by the habit that has the number
NUMBERED = {
    "address_bits": Numbered("addresses have only {} bits", range(1, 64), (32, 48),
                             lambda run, bits: run.highest >> bits),
    "tag_bits": Numbered("tags have only {} bits", range(1, 64), (8, 16, 32),
                         lambda run, bits: run.highest >> bits),
    "index_bits": Numbered("numbers of sets have only {} bits", range(1, 20), (8, 10, 12),
                           lambda run, bits: run.cache[0] > bits),
    "most_set_bits": Numbered("-s counts as {} where it is more", range(1, 20), (4, 8, 10),
                              lambda run, bits: run.cache[0] > bits),
    "ways": Numbered("a set uses at most {} of its lines", range(1, 65), (1, *ROOM),
                     lambda run, lines: run.cache[1] > lines),
    "apart": Numbered("the array has {} lines for a set, and more run into the next set",
                      range(2, 65), ROOM, lambda run, lines: run.cache[1] > lines),
    "digits": Numbered("only the first {} digits of an address are read (an array for the line "
                       "that has 4 bytes more does that)", range(4, 16), (8, 12),
                       lambda run, digits: run.longest > digits),
    "kept": Numbered("a line of the trace is read into {} bytes, and longer ones are lost",
                     range(8, 25), (16, 20), lambda run, room: run.longest > room - 8),
    "split": Numbered("a line of the trace is read into {} bytes, and the rest of a longer one is "
                      "taken for a line", range(8, 25), (16, 20),
                      lambda run, room: run.longest > room - 8),
    "stale": Numbered("a line of the trace is read into {} bytes, and the rest of a longer one is "
                      "taken for a line, with what it lacks from the one before",
                      range(8, 25), (16, 20), lambda run, room: run.longest > room - 8),
}
# those that are looked for as RARE ones are
RARE_NUMBERED = "most_set_bits", "split", "stale"
BITS = "the first block with a clear reference bit is evicted, and"
LATE, OTHERS, ALL = ("where there is none all bits are cleared",
                     "the others are cleared once all are set", "all are cleared once all are set")
CHANCE = "gets a second chance (the clock algorithm)"
STANDS = "a hit does not advance the clock of"
THEN = ", and a miss does once its block is in"
LAST = "; of equal ones the last is evicted"
# the usual ones of those with a number: their names, and how a program differs from a right one
USUAL = {each.text.format(number): {habit: number}
         for habit, each in NUMBERED.items() for number in each.usual
         if habit not in RARE_NUMBERED}
# the same of mistakes that are usual
MISTAKES = {
    "a hit does not count as a use of its block (FIFO)": {"evicts": "came"},
    "the block used last is evicted (MRU)": {"evicts": "latest"},
    "the block used least often is evicted (LFU)": {"evicts": "rarest"},
    "the block used least often is evicted, of several the one used longest ago (LFU)": {
        "evicts": "rarest, oldest"},
    "a full set always evicts the block in its first line": {"evicts": "first"},
    "a new block counts as the oldest of its set": {"is_old": ("fills", "evicts")},
    "a store that hits does not count as a use of its block": {"no_use": "S"},
    "a load that hits does not count as a use of its block": {"no_use": "L"},
    "a store that misses brings no block in": {"passes": True},
    "M counts as one access": {"stores": lambda went: 0},
    "the store of an M that misses does not count": {"stores": lambda went: went == "hit"},
    "the store of an M that evicts does not count": {"stores": lambda went: went != "eviction"},
    "M is ignored": {"kinds": "LS"},
    "S is ignored": {"kinds": "LM"},
    "I lines count as accesses": {"kinds": "LSMI"},
    **USUAL,
    "addresses are signed, and cut at 7fffffffffffffff": {"is_signed": True},
    **{f"the clock of LRU {has} {bits} bits": {"clock_bits": bits, "has_signed_clock": is_signed}
       for has, is_signed in (("has only", False), ("is signed and has only", True))
       for bits in (8, 16)},
    f"{BITS} {LATE} (NRU)": {"evicts": "clear"},
    f"{BITS} {OTHERS} (NRU)": {"evicts": "clear", "clears": "others"},
    f"a block that was used {CHANCE}": {"evicts": "chance"},
    f"a block that was used since it came {CHANCE}": {"evicts": "chance", "fresh": False},
    "one pointer goes round the lines of all sets": {"evicts": "turn"},
    f"{STANDS} LRU": {"ticks": "before"},
    f"{STANDS} LRU{THEN}": {"ticks": "after"},
    "an access that ends in another block counts for that too": {"crosses": True},
    "a line that is still empty is found by tag 0": {"is_valid": False},
    "-s and -b are exchanged": {"cache_of": lambda s, lines, b: (b, lines, s)},
    **{f"blocks have {1 << bits} bytes, whatever -b is": {
        "cache_of": lambda s, lines, b, bits=bits: (s, lines, bits)} for bits in (4, 5, 6)},
    "the last line of the trace counts twice (while !feof)": {"taken": lambda all: all + all[-1:]},
    "the last line of the trace is lost": {"taken": lambda all: all[:-1]},
    "the first line of the trace is lost": {"taken": lambda all: all[1:]},
    "lines whose address begins with a letter are lost": {
        "taken": lambda all: [one for one in all if one.digits[0] in DIGITS]},
    "the trace is read to line 65,536": {"taken": lambda all: all[:1 << 16]},
    "all blocks share one set": {"set_of": lambda address, s, b: 0},
    "the set is that of the address, with its offset": {
        "set_of": lambda address, s, b: address & (1 << s) - 1},
    "the set is that of 2 * s and not of 2 to the power of s": {
        "set_of": lambda address, s, b: (address >> b) % (2 * s) if s else 0},
    "the set is that of 2 ^ s, which is an exclusive or in C": {
        "set_of": lambda address, s, b: (address >> b) % max(1, 2 ^ s)},
    "the mask of the set is 1 << (s - 1), which is how C reads 1 << s - 1": {
        "set_of": lambda address, s, b: address >> b & 1 << s - 1 if s else 0},
    "the set is in the highest of 32 bits": {
        "set_of": lambda address, s, b: address >> max(0, 32 - s) & (1 << s) - 1},
    "the mask of the set is s and not 2 to the power of s, less 1": {
        "set_of": lambda address, s, b: address >> b & s},
    "the offset is taken for a part of the tag": {"tag_of": lambda address, s, b: address},
    "the tag is the address without s bits, with b bits of the offset": {
        "tag_of": lambda address, s, b: address >> s},
    "the tag is shifted by one bit too many": {
        "tag_of": lambda address, s, b: address >> s + b + 1},
    "the set is shifted by one bit too many": {
        "set_of": lambda address, s, b: address >> b + 1 & (1 << s) - 1},
    "the set is shifted by one bit too few": {
        "set_of": lambda address, s, b: address >> max(0, b - 1) & (1 << s) - 1},
    "the set is taken modulo one less than the number of sets": {
        "set_of": lambda address, s, b: (address >> b) % max(1, (1 << s) - 1)},
    "the last byte of an access decides on its block": {"taken": lambda all: [
        one._replace(address=one.address + one.size - 1) for one in all]},
    "S counts as two accesses": {"taken": twice("S")},
    "L counts as two accesses": {"taken": twice("L")},
    "each miss counts as an eviction": {"report": lambda h, m, e: (h, m, m)},
    "an eviction does not count as a miss": {"report": lambda h, m, e: (h, m - e, e)},
    "an eviction counts as a hit too": {"report": lambda h, m, e: (h + e, m, e)},
    "evictions are not counted": {"report": lambda h, m, e: (h, m, 0)},
    "evictions are one too few": {"report": lambda h, m, e: (h, m, max(0, e - 1))},
    "evictions are the misses less the lines of all sets": {
        "by_size": lambda s, lines: lines << s},
    "a set's last free line counts as an eviction when it is filled": {
        "early": lambda cache, place: place == cache.ways - 1},
    "all accesses count as misses": {"report": lambda h, m, e: (h, h + m, e)},
    "hits are one too many": {"report": lambda h, m, e: (h + 1, m, e)},
    "hits and misses are exchanged": {"report": lambda h, m, e: (m, h, e)},
    "misses and evictions are exchanged": {"report": lambda h, m, e: (h, e, m)},
    "counts have only 8 bits": {"report": counts_of(8)},
    "counts have only 16 bits": {"report": counts_of(16)},
}
# those that are not, and are looked for where the usual ones do not fit and there are cases enough
RARE = {
    "the oldest block but one is evicted": {"evicts": "second"},
    "a block that hits changes places with the one used last": {"hit": "swap"},
    "a hit makes its block younger by one only": {"hit": "later", "has_own_clock": True},
    **{f"ages {are} only 8 bits{when}": {
        "evicts": "age", "has_own_clock": True,
        "age_of": lambda age, ways, is_signed=is_signed, less=less: short(
            age - less, 8, is_signed)}
       for are, is_signed in (("have", False), ("are signed and have", True))
       for when, less in (("", 0), (", and grow once a block is chosen", 1))},
    **{f"{BITS} {when}; that of a new block is clear (NRU)": {
        "evicts": "clear", "clears": clears, "fresh": False}
       for clears, when in (("", LATE), ("others", OTHERS), ("all", ALL))},
    f"{BITS} {ALL} (NRU)": {"evicts": "clear", "clears": "all"},
    **{f"{STANDS} {owner}{when}{equal}": {
        "ticks": ticks, "has_own_clock": owner == "its set", "evicts": evicts}
       for owner in ("its set", "LRU") for ticks, when in (("before", ""), ("after", THEN))
       for evicts, equal in (("used", ""), ("used, last", LAST))},
    "a block that replaces another counts as the oldest of its set (its time is not set)": {
        "is_old": ("evicts",)},
    "a block in a line that was free counts as the oldest of its set (its time is not set)": {
        "is_old": ("fills",)},
    "a store or an M that hits does not count as a use of its block": {
        "no_use": "S", "spread": from_store},
    "an eviction counts, but the old block stays, and the new one is not kept": {"stays": True},
    "a full set keeps its blocks, and nothing is evicted": {
        "stays": True, "report": lambda h, m, e: (h, m, 0)},
    "a miss that fills a free line goes on as if there was none (it counts as an eviction too)": {
        "early": lambda cache, place: True, "goes_on_full": True},
    "a miss counts as an eviction unless it is the first in its set (or it fills all free lines)": {
        "early": lambda cache, place: place > 0},
    "all accesses after the first hit count as hits (a flag is not reset)": {"sticks": True},
    **{f"a line keeps its tag in {bits} bits, {sign}, and all bits are compared": {
        "kept_tag": lambda tag, bits=bits, is_signed=is_signed: (
            short(tag, bits, is_signed) % (1 << 64))}
       for bits in (8, 16, 32) for sign, is_signed in (("signed", True), ("unsigned", False))},
    "tags are not compared": {"tag_of": lambda address, s, b: 0},
    "the mask of the set is (2 ^ s) - 1, where ^ is an exclusive or in C": {
        "set_of": lambda address, s, b: address >> b & (2 ^ s) - 1},
    "the mask of the set is 2 * s - 1 and not 2 to the power of s, less 1": {
        "set_of": lambda address, s, b: address >> b & 2 * s - 1},
    "the mask of the set has a bit too few": {
        "set_of": lambda address, s, b: address >> b & (1 << s >> 1) - (s > 0)},
    **{f"the tag{what} computed in a double (by pow), which keeps 53 bits": {
        "tag_of": lambda address, s, b: int(float(address) / 2 ** (s + b)), **others}
       for what, others in ((" is", {}), (" and the set are", {
           "set_of": lambda address, s, b: int(float(address) / 2 ** b) & (1 << s) - 1}))},
    "the set is shifted by s bits and not by b": {
        "set_of": lambda address, s, b: address >> s & (1 << s) - 1},
    "a set has a line too many": {"cache_of": lambda s, lines, b: (s, lines + 1, b)},
    "of the number behind -E only the first digit is taken": {
        "cache_of": lambda s, lines, b: (s, digit(lines), b)},
    "of the numbers behind options only the first digits are taken": {
        "cache_of": lambda s, lines, b: (digit(s), digit(lines), digit(b))},
    "the number behind -E is read as a hexadecimal one": {
        "cache_of": lambda s, lines, b: (s, as_hexadecimal(lines), b)},
    "the numbers behind options are read as hexadecimal ones": {
        "cache_of": lambda *numbers: tuple(map(as_hexadecimal, numbers))},
    "of the number behind -s only the first digit is taken": {
        "cache_of": lambda s, lines, b: (digit(s), lines, b)},
    "of the number behind -E only the last digit is taken": {
        "cache_of": lambda s, lines, b: (s, digit(lines, -1), b)},
    **{f"{what}{said}": {"spread": spread(places, order)}
       for what, places in (("each block that an access touches counts", blocks),
                            ("each byte of an access counts", each_byte),
                            ("the block of an access's last byte counts too", ends),
                            ("the block behind an access's own counts too where it ends there",
                             next_too),
                            ("the block of the byte behind an access counts too", past))
       for order, said in (("each", ""), ("loads", ", for M first all loads"),
                           ("once", ", for M as one access"))
       if (places, order) != (ends, "once")},  # which is known
    "an access that crosses into another block counts as a miss more": {"spread": crossing_counts},
    **{f"each line that is compared and has another block counts as a miss{said}": {
        "compared": compared}
       for said, compared in (
           ("", lambda before, ways, is_hit: before if is_hit else ways),
           (", and an access that misses as one more",
            lambda before, ways, is_hit: before if is_hit else ways + 1),
           (", empty ones do not", lambda before, ways, is_hit: before),
           (", empty ones do not, and an access that misses as one more",
            lambda before, ways, is_hit: before + (not is_hit)),
           (", those behind the one that hits too",
            lambda before, ways, is_hit: ways - is_hit))},
    "each line with I counts as a hit": fetch_as("hit"),
    "each line with I counts as a miss": fetch_as("miss"),
    "a line with I counts as two accesses, as M": fetch_as("L", "S"),
    "S counts as two accesses, and M as one": {
        "taken": twice("S"), "stores": lambda went: 0},
    "the byte behind an access decides on its block": {"taken": lambda all: [
        one._replace(address=one.address + one.size) for one in all]},
    "all blocks share one set, which has the lines of all": {
        "cache_of": lambda s, lines, b: (0, lines << s, b)},
    "the line after one with I is lost": {"taken": after_fetch_lost},
    "each second line of the trace is lost": {"taken": lambda all: all[::2]},
    "each second line of the trace is lost, fetches not counted": {
        "taken": lambda all: [one for one in all if one.kind != "I"][::2]},
    "each line after one with an access is lost": {"taken": after_access_lost},
    **{f"addresses are read as {name} numbers{those}": {"taken": in_base(base, checked)}
       for name, base in (("decimal", 10), ("octal", 8))
       for those, checked in (("", 0), (", and lines whose first digit is another are lost", 1),
                              (", and lines with other digits are lost", 16))},
    "only the first eviction from each set counts": {
        "counted": lambda cache, index, line: index not in cache.evicting},
    "the first eviction from each set does not count": {
        "counted": lambda cache, index, line: index in cache.evicting},
    "only the eviction of a block that was stored to counts": {
        "counted": lambda cache, index, line: line.is_dirty},
    "only the eviction of a block that was not stored to counts": {
        "counted": lambda cache, index, line: not line.is_dirty},
    "an eviction counts only once all sets are full": {
        "counted": lambda cache, index, line: cache.filled >= cache.ways << cache.set_bits},
    "after the first eviction each miss counts as one (a flag is not reset)": {
        "early": lambda cache, place: bool(cache.evicting)},
    "evictions are the misses less the lines of one set": {"by_size": lambda s, lines: lines},
    "evictions are the misses less the number of sets": {"by_size": lambda s, lines: 1 << s},
    **{f"a full set is emptied{what}, which counts as {count}": {"flushes": flushes, "each": each}
       for what, flushes in (("", "set"), (", with all others", "cache"))
       for count, each in (("one eviction", False), ("an eviction of each of its blocks", True))},
    "a set has twice as many lines": {"cache_of": lambda s, lines, b: (s, 2 * lines, b)},
    "a set has 2 to the power of -E lines": {"cache_of": lambda s, lines, b: (s, 1 << lines, b)},
    "a set has a line too few (with -E 1, one)": {
        "cache_of": lambda s, lines, b: (s, max(1, lines - 1), b)},
    "a set has a line too few, and with -E 1 each miss counts as an eviction": {
        "cache_of": lambda s, lines, b: (s, max(1, lines - 1), b),
        "early": lambda cache, place: cache.lines == 1},
    "a set has a line too few, and with -E 1 nothing hits": {
        "cache_of": lambda s, lines, b: (s, max(1, lines - 1), b),
        "unseen": lambda cache, place: cache.lines == 1},
    "a hit in the last line of a set is overlooked": {
        "unseen": lambda cache, place: place == cache.ways - 1},
    "a hit in the first line of a set is overlooked": {"unseen": lambda cache, place: place == 0},
    "a set's last free line counts as an eviction when it is filled, unless it is the only one": {
        "early": lambda cache, place: 0 < place == cache.ways - 1},
    "-s and -E are exchanged": {"cache_of": lambda s, lines, b: (min(20, lines), max(1, s), b)},
    "-E and -b are exchanged": {"cache_of": lambda s, lines, b: (s, max(1, b), lines)},
    "there are twice as many sets": {"cache_of": lambda s, lines, b: (s + 1, lines, b)},
    "there are half as many sets": {"cache_of": lambda s, lines, b: (max(0, s - 1), lines, b)},
    "blocks are twice as large": {"cache_of": lambda s, lines, b: (s, lines, b + 1)},
    "blocks are half as large": {"cache_of": lambda s, lines, b: (s, lines, max(0, b - 1))},
    "there are s sets, not 2 to the power of s": {
        "set_of": lambda address, s, b: (address >> b) % max(1, s)},
    "blocks have b bytes, not 2 to the power of b": {
        "set_of": lambda address, s, b: address // max(1, b) & (1 << s) - 1,
        "tag_of": lambda address, s, b: address // max(1, b) >> s},
    "for the set, but not for the tag, blocks have b bytes, not 2 to the power of b": {
        "set_of": lambda address, s, b: address // max(1, b) & (1 << s) - 1},
    "the set is in the lowest bits of the tag": {
        "set_of": lambda address, s, b: address >> s + b & (1 << s) - 1},
    **{f"the set is in the highest of {bits} bits": {
        "set_of": lambda address, s, b, bits=bits: address >> bits - s & (1 << s) - 1}
       for bits in (48, 64)},
    "the set is that of the address, with its offset, and the tag is the rest": {
        "set_of": lambda address, s, b: address & (1 << s) - 1,
        "tag_of": lambda address, s, b: address >> s},
    "the mask of the set is 1 << s, without less 1": {
        "set_of": lambda address, s, b: address >> b & 1 << s},
    **{f"{name} have only {bits} bits": {
        "report": lambda *counts, at=at, bits=bits: tuple(
            short(count, bits) if place == at else count for place, count in enumerate(counts))}
       for at, name in enumerate(("hits", "misses", "evictions")) for bits in (8, 16)},
    "counts are signed and have only 8 bits": {"report": counts_of(8, True)},
    "counts are signed and have only 16 bits": {"report": counts_of(16, True)},
    "hits, misses and evictions are told in the order misses, evictions, hits": {
        "report": permuted(1, 2, 0)},
    "hits, misses and evictions are told in the order evictions, hits, misses": {
        "report": permuted(2, 0, 1)},
    "hits and evictions are exchanged": {"report": permuted(2, 1, 0)},
    "the last line of a set that is older than its first is evicted (the least time is not kept)": {
        "evicts": "last older than first"},
    "the first line of a set that is older than its first one is evicted (the search ends there)": {
        "evicts": "first older than first"},
    "the last line that is older than the one before it is evicted": {
        "evicts": "older than the one before"},
    "the first line of a set is never evicted, unless it is the only one": {"evicts": "not first"},
    "the last line of a set is never evicted, unless it is the only one": {"evicts": "not last"},
    "a full set always evicts the block in its last line": {"evicts": "last"},
    "the block that came last is evicted (LIFO)": {"evicts": "newest"},
    "the block used most often is evicted (MFU)": {"evicts": "most often"},
    f"the block used least often is evicted (LFU){LAST}": {"evicts": "rarest, last"},
    **{f"the line used least often is evicted, and a new block goes on with its count{equal}": {
        "evicts": evicts, "goes_on": True}
       for evicts, equal in (("rarest", ""), ("rarest, last", LAST),
                             ("rarest, oldest", "; of equal ones the one used longest ago"))},
    "the block with the lowest tag is evicted": {"evicts": "lowest tag"},
    "the block with the highest tag is evicted": {"evicts": "highest tag"},
    "a line by rand() is evicted, without srand()": {"evicts": "rand"},
    **{f"the line that is evicted is the number of {what}, modulo -E": {
        "evicts": evicts, "has_own_clock": is_own}
       for what, evicts, is_own in (("accesses", "accesses", False), ("misses", "misses", False),
                                    ("accesses to its set", "accesses", True),
                                    ("evictions", "evictions", False))},
    **{f"the clock of {owner} advances at hits only{equal}": {
        "ticks": "hits", "has_own_clock": owner == "its set", "evicts": evicts}
       for owner in ("LRU", "its set") for evicts, equal in (("used", ""), ("used, last", LAST))},
    "the clock of LRU advances at evictions only": {"ticks": "evictions"},
    "the clock of LRU advances at evictions only, before the new block is in": {
        "ticks": "evicting"},
    "a block that hits changes places with the one used next after it": {"hit": "climbs"},
    "a block that hits moves by one line to the front, and the last line is evicted": {
        "hit": "place", "evicts": "last"},
    **{f"blocks last used {limit} or more accesses to their set ago are taken for equally old (a "
       "counter stops there)": {
           "evicts": "age", "has_own_clock": True, "age_of": lambda age, ways, less=less: min(
               age, ways - less)} for limit, less in (("-E less 1", 1), ("-E", 0))},
}
