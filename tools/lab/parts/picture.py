"""The sets of a cache as `replay` draws them, step by step, and why each step does what it does."""

from collections import namedtuple

from parts.cache import number_of

ACCESSES = ("read", "write", "fetch")
# A block in a way of a set. It is there since the step in which it was used last, or with FIFO in
# which it came, and in that line of the trace. The one with the least `since` is evicted next.
Block = namedtuple("Block", "tag since line dirty", defaults=(False,))


class Step:
    """What a reference or a flush does, with its set as it is afterwards."""

    address = tag = set = offset = 0
    outcome, is_write = "hit", False
    way = evicted = None  # the way that is hit or filled, and the block that was there
    held = ()  # the set: a block for each way, None for a free one
    written_back = 0  # by a flush

    def __init__(self, number, line, access):
        self.number = number
        self.line, self.access = line, access  # of the trace, as it has them
        self.sent = []  # what the log says that memory gets

    @property
    def next(self):
        """The way to be evicted next, none while a way is free."""
        if not self.held or None in self.held:
            return None
        return self.held.index(min(self.held, key=lambda block: block.since))


class Picture:
    """The sets as drawn, not those of the program. A step gives the line its log should have."""

    def __init__(self, cache, only=None):
        self.cache, self.sets, self.steps = cache, {}, []
        self.only = only  # the number of the one set that is shown, or None
        self.before, self.count = {}, 0  # the last steps of sets that are no longer there

    def new_step(self, line, access):
        self.count += 1
        self.steps.append(Step(self.count, line, access))
        return self.steps[-1]

    def drop_first(self):
        """Forgets the first step, but not what its set holds then."""
        step = self.steps.pop(0)
        self.before = {} if step.access == "flush" else {**self.before, step.set: step}

    def flush(self, line):
        blocks = [block for lines in self.sets.values() for block in lines]
        dirty = sum(1 for block in blocks if block and block.dirty)
        self.sets = {}
        step = self.new_step(line, "flush")
        step.outcome, step.written_back = "flush", dirty
        return f"{self.cache.place} flush {dirty}"

    def access(self, line, access, label, address):
        step = self.new_step(line, access)
        step.address, step.is_write = address, ACCESSES[label] == "write"
        block, step.offset = divmod(address, self.cache.block)
        step.tag, step.set = divmod(block, self.cache.sets)
        lines = self.sets.setdefault(step.set, [None] * self.cache.ways)
        self.find(step, lines)
        if step.way is not None and step.is_write and self.cache.wback == "a":
            lines[step.way] = lines[step.way]._replace(dirty=True)
        step.held = tuple(lines)
        return f"{self.cache.place} {label} {address:x} {step.outcome}{self.victim_of(step)}"

    def find(self, step, lines):
        """Finds the block of a step in its set, or brings it in."""
        tags = [block and block.tag for block in lines]
        step.way = tags.index(step.tag) if step.tag in tags else None
        if step.way is not None:
            if self.cache.repl == "l":
                lines[step.way] = lines[step.way]._replace(since=step.number, line=step.line)
            return
        step.outcome = "miss"
        if step.is_write and self.cache.walloc == "n":
            return
        if None in lines:
            step.way = lines.index(None)
        else:
            step.outcome = "miss eviction"
            step.way = min(range(self.cache.ways), key=lambda way: lines[way].since)
            step.evicted = lines[step.way]
        lines[step.way] = Block(step.tag, step.number, step.line)

    def victim_of(self, step):
        """What the log says of an evicted block."""
        if not step.evicted:
            return ""
        address = (step.evicted.tag * self.cache.sets + step.set) * self.cache.block
        return f" {address:x}{' dirty' * step.evicted.dirty}"


def why(cache, step):
    """The reason for what a step does, in words."""
    if step.access == "flush":
        written = number_of(step.written_back, "dirty block")
        return f"A flush empties all sets. {written} written back."
    index, tag = cache.text(step.set), cache.text(step.tag)
    if step.outcome == "hit":
        is_fifo = cache.repl == "f" and cache.ways > 1
        kept = " With FIFO a use does not change the order of eviction." if is_fifo else ""
        return f"Way {step.way} of set {index} holds tag {tag}.{kept}{dirt(cache, step)}"
    lacks = f"Set {index} does not hold tag {tag}."
    if step.way is None:
        return f"{lacks} A write that misses brings no block in (no write-allocate)."
    if not step.evicted:
        return f"{lacks} Way {step.way} is free and takes the block.{dirt(cache, step)}"
    block, verb = step.evicted, "was last used" if cache.repl == "l" else "came"
    rule = f"{verb} in trace line {block.line}, the others later"
    rule = rule if cache.ways > 1 else "is the only one"
    written = " It is dirty, so it is written back." if block.dirty else ""
    return (f"Set {index} is full and does not hold tag {tag}. The block in way {step.way} "
            f"(tag {cache.text(block.tag)}) is evicted: it {rule}.{written}{dirt(cache, step)}")


def dirt(cache, step):
    """What a write does to its block, in words."""
    if not step.is_write or cache.wback != "a":
        return ""
    return " The write makes this block dirty: memory gets it only when it is evicted or flushed."


def to_memory(cache, step):
    """What the log says that memory gets, in words."""
    texts = []
    for sent in step.sent:
        kind, _, address = sent.partition(" ")
        is_back = kind == "write" and step.evicted and step.evicted.dirty and not texts
        what = ("the evicted block, which is dirty, is written back" if is_back else
                "the write itself (write-through, or no write-allocate)" if kind == "write" else
                "the missing block is read")
        texts.append(f"{what} at {cache.text(int(address, 16))}")
    return f"Sent to memory: {'; then '.join(texts)}." if texts else ""
