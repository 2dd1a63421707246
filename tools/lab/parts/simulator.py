"""A simulator for the cache lab with the habits of students' programs, right ones and others."""

import collections
import re

from parts.victims import COUNTED, KEYS, PLACES

MOST = 200000  # accesses: longer traces are not looked at
MANY = 1 << 20  # no limit
PART = re.compile(r"\s*(\S)?(?:\s*([0-9a-fA-F]+)(?:,([0-9]+))?)?")  # what sscanf finds in a part
# a line of a trace; the digits are those that its address is written with
Access = collections.namedtuple("Access", "kind address size digits")
# how a right simulator works
RIGHT = dict(
    evicts="used",  # the block used first, or that which came first, was used last, ..
    # how an age is kept where the oldest is evicted
    age_of=lambda age, ways: age,
    hit="now",  # what a hit does to the time of its block's last use: it is now, or one
    # "later", or its block and the one used last "swap" theirs, or it "climbs" by one in age, or by
    # one "place"
    fresh=True,  # the reference bit of a new block
    clears="",  # the reference bits of all, or of all "others", once all are set; or late
    address_bits=64,
    tag_bits=64,
    kept_tag=None,  # what a line keeps of its tag, which is compared with a whole one
    index_bits=64,  # of a set's number
    most_set_bits=64,
    clock_bits=64,
    has_signed_clock=False,
    has_own_clock=False,  # each set
    ticks="",  # the clock stands at a hit, and at a miss goes on "before" or "after" its use; or
    # it goes on at "hits", at "evictions", or before each of these at "evicting"
    is_signed=False,
    kinds="LSM",
    stores=lambda went: 1,  # how often the store of an M counts after what its load did
    no_use="",  # the kinds of a hit that is no use of its block
    is_old=(),  # a new block is older than all others where it "fills" a free line or "evicts"
    passes=False,  # a store that misses brings no block in
    crosses=False,  # an access touches the block of its last byte too
    spread=None,  # what an access touches, as kinds and addresses; "hit" and "miss" only count
    is_valid=True,  # whether a line's valid bit is looked at
    unseen=lambda cache, place: False,  # whether a hit in the line at a place is overlooked
    ways=MANY,  # a set uses at most so many lines
    apart=MANY,  # the array has so many lines for a set; more run into the next
    # whether a set's free line counts as an eviction when it is filled
    early=lambda cache, place: False,
    goes_on_full=False,  # the block that fills the last free line takes a second one
    counted=lambda cache, index, line: True,  # whether an eviction of a line from a set counts
    # how many misses an access counts as, by the lines with other blocks that were looked at before
    # the one that hits, or in all, the lines of a set, and whether it hits
    compared=None,
    flushes="",  # a full "set", or all sets of the "cache", are emptied; each block is an eviction
    each=False,  # .. that counts, or all are one
    goes_on=False,  # how often a line was used is kept when its block changes
    stays=False,  # an eviction counts, but the old block stays, and the new one does not
    sticks=False,  # after the first hit all accesses hit
    by_size=None,  # evictions are the misses less this, by set bits and lines
    digits=MANY,  # only so many of an address are read
    kept=MANY,  # a line is read into so many bytes, the last of them 0, and must fit
    split=MANY,  # the same, where the rest is taken for a line, unless it is not whole
    stale=MANY,  # the same, and what it lacks stays as it was
    taken=lambda accesses: accesses,
    cache_of=lambda s, lines, b: (s, lines, b),
    set_of=lambda address, s, b: address >> b & (1 << s) - 1,
    tag_of=lambda address, s, b: address >> s + b,
    report=lambda hits, misses, evictions: (hits, misses, evictions),
)
Habits = collections.namedtuple("Habits", RIGHT, defaults=RIGHT.values())
# the habits that change which accesses count, or what is told of the counts
OF_ACCESSES = ("kinds", "stores", "crosses", "spread", "compared", "kept", "split", "stale",
               "taken", "report")


def short(number, bits, is_signed=False):
    """A number that is kept in so few bits."""
    number &= (1 << bits) - 1
    return number - (1 << bits) if is_signed and number >> bits - 1 else number


class Line:
    """A block in a line of a set."""

    __slots__ = ("used", "came", "uses", "place", "bit", "tag", "is_dirty")

    def __init__(self, used, came, place, bit, tag):
        self.used, self.came, self.uses, self.place, self.bit = used, came, 1, place, bit
        self.tag, self.is_dirty = tag, False


class Cache:
    """A cache with the given habits; its counts."""

    def __init__(self, cache, habits):
        self.set_bits, lines, self.block_bits = habits.cache_of(*cache)
        self.set_bits = min(self.set_bits, habits.most_set_bits)
        self.ways, self.habits, self.lines = min(lines, habits.ways), habits, cache[1]
        self.sets, self.clocks, self.hands = {}, collections.Counter(), {}
        self.hits = self.misses = self.evictions = self.filled = 0
        self.evicting = set()  # the sets that had an eviction

    def touch(self, kind, address):
        """An access to one block. Returns whether it hits."""
        habits = self.habits
        address &= (1 << habits.address_bits) - 1
        if habits.is_signed:
            address = min(address, (1 << 63) - 1)
        index = habits.set_of(address, self.set_bits, self.block_bits)
        tag = habits.tag_of(address, self.set_bits, self.block_bits) & (1 << habits.tag_bits) - 1
        index &= (1 << habits.index_bits) - 1
        lines = self.sets.setdefault(index, {})
        line = first_with(tag, lines) if habits.kept_tag else lines.get(tag)
        is_hit = (line or habits.sticks and self.hits
                  or not habits.is_valid and tag == 0 and len(lines) < self.ways)
        if habits.ticks in ("", "hits" if is_hit else "before"):
            self.tick(index)
        misses = 0 if is_hit else 1
        if habits.compared:
            before = line.place if line else len(lines)
            misses = habits.compared(before, self.ways, bool(is_hit))
        self.misses += misses
        if is_hit:
            self.hits += 1
            if line:
                self.use(kind, index, lines, line)
            return "hit"
        before = self.evictions
        if not (habits.passes and kind == "S"):
            self.bring(kind, index, lines, tag)
        if habits.ticks == "after" or habits.ticks == "evictions" and self.evictions > before:
            self.tick(index)
        return "miss" if self.evictions == before else "eviction"

    def touch_all(self, touched):
        """Accesses to some blocks, or what only counts."""
        for kind, address in touched:
            if kind in "LS":
                self.touch(kind, address)
            self.hits += kind == "hit"
            self.misses += kind == "miss"

    def tick(self, index):
        clock, habits = index if self.habits.has_own_clock else None, self.habits
        now = self.clocks[clock] + 1
        self.clocks[clock] = short(now, habits.clock_bits, habits.has_signed_clock)

    def now(self, index):
        return self.clocks[index if self.habits.has_own_clock else None]

    def use(self, kind, index, lines, line):
        """Notes that a block was hit."""
        line.uses += 1
        line.is_dirty |= kind == "S"
        self.mark(lines, line)
        if kind in self.habits.no_use:
            return
        if self.habits.hit == "swap":
            last = max(lines.values(), key=lambda one: one.used)
            line.used, last.used = last.used, line.used
        elif self.habits.hit in ("climbs", "place"):
            self.climb(lines, line)
        else:
            line.used = self.now(index) if self.habits.hit == "now" else line.used + 1

    def climb(self, lines, line):
        """Has a block change with the one that was used next after it, or is one place before."""
        name = "used" if self.habits.hit == "climbs" else "place"
        mine = getattr(line, name)
        found = [one for one in lines.values()
                 if (one.used > mine if name == "used" else one.place == mine - 1)]
        for other in sorted(found, key=lambda one: one.used)[:1]:
            setattr(line, name, getattr(other, name))
            setattr(other, name, mine)

    def bring(self, kind, index, lines, tag):
        """Brings a block in, and evicts one where the set is full."""
        place, habits, uses = len(lines), self.habits, 1
        if not self.ways:
            return
        is_full = place >= self.ways
        if is_full:
            gone = None
            if not (habits.stays or habits.flushes):
                gone = lines.pop(self.victim(index, lines))
            self.evictions += habits.counted(self, index, gone)
            self.evicting.add(index)
            if habits.ticks == "evicting":
                self.tick(index)
            if habits.stays:
                return
            if gone:
                place, uses = gone.place, gone.uses + 1 if habits.goes_on else 1
            else:
                place = self.flush(lines)
        else:
            self.filled += 1
            self.evictions += habits.early(self, place)
        used = 0 if ("evicts" if is_full else "fills") in habits.is_old else self.now(index)
        kept = habits.kept_tag(tag) if habits.kept_tag else tag
        made = Line(used, self.misses, place, habits.fresh, kept)
        made.uses, made.is_dirty = uses, kind == "S"
        is_hidden = habits.unseen(self, place) or habits.kept_tag
        lines[("hidden", self.misses) if is_hidden else tag] = made
        self.mark(lines, made, habits.fresh)
        if habits.goes_on_full and not is_full and 0 < place == self.ways - 1:
            gone = lines.pop(self.victim(index, lines))
            lines["hidden"] = Line(used, self.misses, gone.place, habits.fresh, kept)

    def flush(self, lines):
        """Empties a set, or all. Returns the place of the next block there."""
        self.evictions += (len(lines) - 1) * self.habits.each
        for one in self.sets.values() if self.habits.flushes == "cache" else [lines]:
            one.clear()
        return 0

    def mark(self, lines, line, bit=True):
        """Sets the reference bit of a block."""
        line.bit, clears = bit, self.habits.clears
        if clears and len(lines) == self.ways and all(one.bit for one in lines.values()):
            for one in lines.values():
                one.bit = clears == "others" and one is line

    def victim(self, index, lines):
        """The tag of the block that is evicted."""
        evicts = self.habits.evicts
        if evicts in KEYS:
            return min(lines, key=lambda tag: KEYS[evicts](lines[tag]))
        if evicts == "second":
            return sorted(lines, key=lambda tag: lines[tag].used)[:2][-1]
        tags = sorted(lines, key=lambda tag: lines[tag].place)
        if evicts == "age":
            now, age_of = self.now(index), self.habits.age_of
            return max(tags, key=lambda tag: age_of(now - lines[tag].used, self.ways))
        if evicts in COUNTED:
            return tags[COUNTED[evicts](self, index) % self.ways]
        if evicts in PLACES:
            return tags[PLACES[evicts]([lines[tag].used for tag in tags])]
        held = [lines[tag] for tag in tags]
        return tags[self.first_clear(held) if evicts == "clear"
                    else self.second_chance(index, held)]

    def turn(self):
        """How often this was asked before."""
        self.hands[0] = self.hands.get(0, -1) + 1
        return self.hands[0]

    def first_clear(self, held):
        """The place of the first block with a clear bit. Where all are set, they are cleared."""
        if all(line.bit for line in held):
            for line in held:
                line.bit = False
        return next(line.place for line in held if not line.bit)

    def second_chance(self, index, held):
        """The place of the first block from the hand on with a clear bit; those before lose it."""
        hand = self.hands.get(index, 0)
        while held[hand].bit:
            held[hand].bit = False
            hand = (hand + 1) % self.ways
        self.hands[index] = (hand + 1) % self.ways
        return hand


def first_with(tag, lines):
    """The first line of a set that keeps a tag; several may."""
    return min((line for line in lines.values() if line.tag == tag),
               key=lambda line: line.place, default=None)


class Overlapping(Cache):
    """A cache whose array has fewer lines for a set than there are, so that sets share some."""

    def touch(self, kind, address):
        """The same, without the other habits."""
        self.tick(0)
        index = self.habits.set_of(address, self.set_bits, self.block_bits)
        tag = self.habits.tag_of(address, self.set_bits, self.block_bits)
        places = range(index * self.habits.apart, index * self.habits.apart + self.ways)
        place = next((at for at in places if self.sets.get(at, (None,))[0] == tag), None)
        if place is None:
            self.misses += 1
            place = next((at for at in places if at not in self.sets), None)
        else:
            self.hits += 1
        if place is None:
            self.evictions += 1
            place = min(places, key=lambda at: self.sets[at][1])
        self.sets[place] = (tag, self.now(0))
        return "hit"


def taken(accesses, habits):
    """The accesses of a trace as they are read."""
    if habits.digits < MANY:
        accesses = [one._replace(address=int(one.digits[:habits.digits], 16))
                    for one in accesses]
    if habits.kept < MANY:
        accesses = [one for one in accesses
                    if 5 + len(one.digits) + len(str(one.size)) <= habits.kept]
    for room, is_checked in (habits.split, True), (habits.stale, False):
        if room < MANY:
            accesses = read_in_parts(accesses, room, is_checked)
    return habits.taken(accesses)


def read_in_parts(accesses, room, is_checked):
    """The accesses of a program that reads a line in parts of so many bytes, each as a line by
    sscanf with " %c %llx,%d", and ignores what begins with I. Where it doesn't check how much was
    found, what lacks is that of the part before."""
    found, kind, address, size = [], "", 0, 0
    for one in accesses:
        text = f"{'I ' if one.kind == 'I' else ' ' + one.kind} {one.digits},{one.size}\n"
        for at in range(0, len(text), room - 1):
            parts = PART.match(text[at:at + room - 1]).groups()
            kind = parts[0] or kind
            address = address if parts[1] is None else int(parts[1], 16)
            size = size if parts[2] is None else int(parts[2])
            if kind != "I" and text[at] != "I" and (parts[2] or not is_checked):
                found.append(Access(kind, address, size, f"{address:x}"))
    return [one if one.kind in "SM" else one._replace(kind="L") for one in found]


def accesses_in(lines):
    """How many accesses a right simulator makes of the lines of a trace."""
    return sum({"I": 0, "M": 2}.get(one.kind, 1) for one in lines)


def takes_all(habits):
    """Whether a simulator with these habits counts each access that a right one makes, and no
    other, as a hit or as a miss."""
    return all(getattr(habits, name) == RIGHT[name] for name in OF_ACCESSES)


def counts(accesses, cache, habits):
    """The numbers of hits, misses and evictions, as a simulator with these habits tells them."""
    made = (Overlapping if cache[1] > habits.apart else Cache)(cache, habits)
    for kind, address, size, _ in taken(accesses, habits):
        if kind not in habits.kinds:
            continue
        if habits.spread:
            made.touch_all(habits.spread(kind, address, size, made.block_bits))
            continue
        went = made.touch("L" if kind == "M" else kind, address)
        for _ in range(habits.stores(went) if kind == "M" else 0):
            made.touch("S", address)
        end = address + size - 1
        if habits.crosses and end >> made.block_bits != address >> made.block_bits:
            made.touch(kind, end)
    if habits.by_size:
        made.evictions = max(0, made.misses - habits.by_size(made.set_bits, made.ways))
    return habits.report(made.hits, made.misses, made.evictions)


def read(path):
    """The accesses of a trace, fetches too; nothing where it is too long to be looked at."""
    found = []
    with open(path, encoding="ascii", errors="replace") as file:
        for line in file:
            kind, _, rest = line.strip().partition(" ")
            address, _, size = rest.strip().partition(",")
            if kind in ("L", "S", "M", "I"):
                found.append(Access(kind, int(address, 16), int(size.split()[0]), address))
                if len(found) > MOST:
                    return []
    return found
