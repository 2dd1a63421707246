"""Random cases for tests/fuzz on both sides of each size at which the program works in another way.

It keeps lists of few, of some and of many blocks in different ways, a sweep also those of up to
4,096 sets and of more, and it feeds the profiles of a sweep some thousands of references at a time.
A place is a command and one of these sizes. The sets of a case are filled, so that blocks are
evicted from lists of that size. At some places, csim, din and log have an index of blocks, and the
blocks of a set are all on one of its chains, so that most are not found by a walk along it.
"""

import collections
import re

import model

WAYS = 11, 12, 16, 17, 31, 32, 63, 64, 127, 128, 255, 256
SETS = 4096, 8192
# with more than 4,096 of them a sweep keeps lists of 32 to 255 ways in another way again
OF_MANY = "ways of 8,192 sets"
# the blocks of a set are all on one chain of an index
OF_CHAIN = "ways of one chain"
# references of a sweep between two flushes
REFERENCES = 4095, 4096, 4097
COMMANDS = "sweep", "csim", "din", "log"
PLACES = [
    *((command, "ways", ways) for ways in WAYS for command in COMMANDS),
    *((command, "sets", sets) for sets in SETS for command in COMMANDS),
    *(("sweep", OF_MANY, ways) for ways in (31, 32)),
    *((command, OF_CHAIN, ways) for ways in (128, 257) for command in ("csim", "din", "log")),
    *(("sweep", "references", count) for count in REFERENCES for _ in range(2)),
]
# between two blocks: neighbours, powers of two, and distances at which sixteen blocks of a list in
# slots have one mark or two (mark_of in slots.rt); at most others they have 14 or more
STEPS = 1, 1, 1, 3, 16, 1024, 130_064, 570_123
# the odd parts of these: powers of two lie between blocks of one set anyway
ODD_STEPS = 1, 3, 8_129, 570_123
# at some place each command has each of these, and din and log each policy
KINDS = [*((command, "step", step) for command in COMMANDS for step in ODD_STEPS),
         *((command, "policy", letter) for command in ("din", "log") for letter in "lfr")]
# the chain of a block is its product with this in 64 bits, whose upper half is scaled to the number
# of chains (chains.rt of block_index), and the block the product with this inverse
FACTOR = 0x9E37_79B9_7F4A_7C15
INVERSE = pow(FACTOR, -1, 2**64)


# ---- traces

def orders(rng, count):
    """How the blocks of a set may come, as functions of the time: in turns, up and down, at random,
    mostly the same, or in turns with a return to the block before."""
    return rng.choice((
        lambda at: at % count,
        lambda at: abs(at % (2 * count) - count) % count,
        lambda at: rng.randrange(count),
        lambda at: int(count * rng.random() ** 3),
        lambda at: (at // 2 - (at % 4 == 3)) % count,
    ))


def turns(rng, ways):
    """A function from the time to an index below ways + 6. First one block more than a set has ways
    come in turns, so that it is full; then in two other orders a few less or more."""
    counts = [max(1, ways + rng.choice((-1, 0, 1, 1, 2, 5))) for _ in range(2)]
    drawn = [lambda at: at % (ways + 1), *(orders(rng, count) for count in counts)]
    length = ways + 1 + rng.randrange(2 * ways)
    return lambda at: drawn[min(at // length, 2)](at)


def numbers(rng, ways, steps=STEPS):
    """A function from the time to the number of a block, which has no digits of its set."""
    step, least = rng.choice(steps), rng.choice((0, 0, 1, 2**40))
    draw = turns(rng, ways)
    return lambda at: least + step * draw(at)


def chain_of(block, chains):
    return (block * FACTOR % 2**64 >> 32) * chains >> 32


def on_one_chain(rng, count, bits, sets, set_, ways):
    """So many blocks of a set that are all on one chain of an index of a cache: of each the upper
    half of the product is one that is scaled to this chain, and the lower half is any that leaves
    the set."""
    chains = sets * ways // 2 + 1
    chain = rng.randrange(chains)
    least, end = (-(-at * 2**32 // chains) for at in (chain, chain + 1))
    found = {}
    while len(found) < count:
        lower = rng.randrange(2**32) // sets * sets + set_ * FACTOR % sets
        block = (rng.randrange(least, end) << 32 | lower) * INVERSE % 2**64
        if block < 2 ** (64 - bits):
            found[block] = None
    return list(found)


def line(rng, format, addr):
    if format == "l":
        return b" %c %x,4" % (rng.choice(b"LLSM"), addr)
    return b"%d %x" % (rng.choice((0, 0, 1, 2)), addr)


def kept_line(rng, format, kind, addr):
    """One reference of a kind."""
    if format == "l":
        return b"I  %x,4" % addr if kind == "i" else b" %c %x,4" % (rng.choice(b"LS"), addr)
    return b"%d %x" % (rng.choice({"u": (0, 1, 2), "d": (0, 1), "i": (2,)}[kind]), addr)


def text_of(lines):
    return b"".join(line + b"\n" for line in lines)


def numbers_of_chain(rng, ways, bits, sets, set_):
    """The same of blocks that are all on one chain."""
    found = on_one_chain(rng, ways + 6, bits, sets, set_, ways)
    draw = turns(rng, ways)
    return lambda at: found[draw(at)] // sets


def filled(rng, format, bits, sets, draws, ways):
    """A trace that fills some sets, each by the function that draws its numbers, in turns, and in
    din a few flushes behind that."""
    rounds, flushes = 3 * ways + rng.randrange(ways + 40), rng.choice((0, 0, 1, 3))
    offsets, lines = (0, 0, 1) if bits else (0,), []
    for at in range(rounds):
        for set_, draw in draws.items():
            addr = (draw(at) * sets + set_ << bits) + rng.choice(offsets)
            lines.append(line(rng, format, addr % 2**64))
        if format == "d" and rng.random() * rounds < flushes and at > ways:
            lines.append(b"4 0")
    return text_of(lines)


def counted(rng, format, kind, count):
    """A trace with so many references of a kind between two flushes, or in all in lackey, which has
    none. Before the first flush and behind the second there may be a few more."""
    number = numbers(rng, rng.choice((40, 100, 200)), steps=(1, 3))
    before, behind = (rng.choice((0, 1, 50)) if format == "d" else 0 for _ in range(2))
    lines = []
    for at in range(before + count + behind):
        if at in (before, before + count) and format == "d":
            lines.append(b"4 0")
        addr = (number(at) * 16 + rng.choice((0, 0, 8))) % 2**64
        lines.append(kept_line(rng, format, kind, addr))
        if format == "d" and kind != "u" and rng.random() < 0.05:
            lines.append(b"%d %x" % (0 if kind == "i" else 2, addr))  # it isn't kept
    return text_of(lines)


# ---- arguments, each with its trace

def of_sweep(format, bsizes, sets, assoc, sizes="0-1g", more=()):
    words = ["--bsize", bsizes, "--sets", sets, "--assoc", assoc, "--size", sizes, *more]
    return ["sweep", *words, *(["--format", format] if format == "l" else [])]


def span(low, high):
    return f"{low}-{high}" if low < high else f"{low}"


def sweep_of_ways(rng, ways, format):
    """The deepest row of each pair has so many ways; or only that of the pairs in the middle has,
    and those of the others have half or twice as many, where all hold as many bytes."""
    bits, sets = rng.choice((0, 4, 6)), 2 ** rng.choice((0, 0, 1, 2))
    bsizes = span(2**bits, 2 ** (bits + rng.choice((0, 0, 1, 2))))
    trace = filled(rng, format, bits, sets, few_of(rng, sets, ways), ways)
    if ways <= 64 and rng.random() < 0.4:
        counts, assoc = span(max(1, sets // 2), 2 * sets), span(max(1, ways // 2 - 1), 2 * ways)
        return of_sweep(format, bsizes, counts, assoc, f"0-{ways * sets << bits}"), trace
    counts = span(sets, sets * rng.choice((1, 1, 2, 4)))
    assoc = span(max(1, ways - rng.choice((0, 1, ways if ways < 40 else 2))), ways)
    return of_sweep(format, bsizes, counts, assoc), trace


def sweep_of_sets(rng, sets, format, ways=None):
    """Without a number of ways one of several."""
    bits = rng.choice((0, 4, 6))
    ways = ways or rng.choice((1, 2, 4, 8, 11, 12, 16, 17, 33))
    low = rng.choice((sets, sets, sets // 2, 1024))
    bsizes = span(2**bits, 2 ** (bits + rng.choice((0, 0, 1))))
    assoc = span(max(1, ways - rng.choice((0, 1, 7))), ways)
    trace = filled(rng, format, bits, sets, few_of_many(rng, sets, ways), ways)
    return of_sweep(format, bsizes, span(low, sets), assoc), trace


def few_of(rng, sets, ways):
    """One or two of a few sets, each with its numbers."""
    touched = rng.sample(range(sets), min(sets, rng.choice((1, 2))))
    return {set_: numbers(rng, ways) for set_ in touched}


def few_of_many(rng, sets, ways):
    """A few sets of many: the first and the last of half of them and of all, and their
    neighbours."""
    edges = [0, 1, 7, 8, 9, sets // 2 - 1, sets // 2, sets // 2 + 1, sets - 8, sets - 1]
    edges += [rng.randrange(sets) for _ in range(4)]
    return {set_: numbers(rng, ways) for set_ in rng.sample(edges, rng.choice((2, 3, 5)))}


def sweep_of_references(rng, count, format):
    kind = rng.choice("uudi")
    sets, ways = rng.choice((8, 16)), rng.choice((2, 11, 12, 16, 17))
    bsizes = span(16, 16 * rng.choice((1, 1, 2)))
    assoc, counts = span(max(1, ways - 1), ways), span(sets, sets * rng.choice((1, 1, 2)))
    arguments = of_sweep(format, bsizes, counts, assoc, more=["--kind", kind])
    return arguments, counted(rng, format, kind, count)


def of_csim(rng, bits, sets, ways):
    words = ["-s", str(sets.bit_length() - 1), "-E", str(ways), "-b", str(bits)]
    return ["csim", *words, "-t", "/dev/stdin", *(["-v"] * (rng.random() < 0.5))]


def one_cache(rng, name, bits, sets, ways):
    words = [f"-{name}sets", f"{sets}", f"-{name}bsize", f"{2**bits}", f"-{name}assoc", f"{ways}"]
    for word, letters in (("repl", "llfr"), ("walloc", "aaan"), ("wback", "aan")):
        if rng.random() < 0.7:
            words += [f"-{name}{word}", rng.choice(letters)]
    return words


def of_system(rng, command, bits, sets, ways, format):
    """Each cache has so many sets and ways, except a first level of one block, which passes nearly
    all on to the second."""
    names = rng.choice((["l1-u"], ["l1-u"], ["l1-i", "l1-d"], ["l2-u"]))
    words = [word for name in names for word in one_cache(rng, name, bits, sets, ways)]
    if names == ["l2-u"]:
        words += ["-l1-usets", "1", "-l1-ubsize", f"{2**bits}"]
    words += ["-informat", format] if format == "l" else []
    return [command, *words, *(["--seed", "7"] * (rng.random() < 0.3))]


SWEEPS = {"ways": sweep_of_ways, "sets": sweep_of_sets, "references": sweep_of_references,
          OF_MANY: lambda rng, ways, format: sweep_of_sets(rng, 8192, format, ways)}


def case_at(rng, place):
    """The arguments and the trace of a case at a place."""
    command, what, size = place
    format = "l" if command == "csim" else rng.choice("dddl")
    if command == "sweep":
        return SWEEPS[what](rng, size, format)
    bits = rng.choice((0, 4, 6))
    if what == "sets":
        sets, ways = size, rng.choice((1, 2, 4, 8, 16, 17, 64))
        draws = few_of_many(rng, sets, ways)
    else:
        sets, ways = 2 ** rng.choice((0, 0, 1, 2)), size
        set_ = rng.randrange(sets)
        draws = few_of(rng, sets, ways) if what == "ways" else {
            set_: numbers_of_chain(rng, ways, bits, sets, set_)}
    text = filled(rng, format, bits, sets, draws, ways)
    if command == "csim":
        return of_csim(rng, bits, sets, ways), text
    return of_system(rng, command, bits, sets, ways, format), text


# ---- where cases stand

def places_of(arguments, text, out):
    """The places at which a case stands, by its arguments, its trace and what is written of it: a
    block was evicted from a list or set of that size."""
    try:
        command, job, _ = model.parse(arguments)
    except (model.Usage, model.Fault):
        return set()
    if command == "sweep":
        return places_of_sweep(job, text, out)
    if command == "csim":
        cache = {"s": job["s"], "b": job["b"], "ways": job["E"]}
        caches = [cache] if re.search("eviction(?!s:0$)", out, re.M) else []
    else:
        evicted = r"^{} (?:.* evictions=[1-9]|.* miss eviction )"
        caches = [it for name, it in job["caches"].items()
                  if re.search(evicted.format(name), out, re.M)]
    entries = model.read(job.get("format", "l"), text)[0]
    found = {(command, "ways", it["ways"]) for it in caches}
    found |= {(command, "sets", 2 ** it["s"]) for it in caches}
    found |= {(command, OF_CHAIN, it["ways"]) for it in caches if is_on_one_chain(entries, it)}
    return found & set(PLACES)


def is_on_one_chain(entries, cache):
    """Whether all blocks of a trace are on one chain of an index of this cache."""
    chains = (cache["ways"] << cache["s"]) // 2 + 1
    refs = model.events_of([it for it in entries if it is not model.FLUSH], "u")
    return len({chain_of(ref.addr >> cache["b"], chains) for ref in refs}) == 1


def places_of_sweep(job, text, out):
    deepest = {(bsize, sets): ways for bsize, sets, ways in model.table(job)}
    found = set()
    for row in out.splitlines():
        bsize, sets, ways, _, _, _, evictions = row.split(",")[:7]
        if evictions.isdecimal() and int(evictions):
            found.add(("sweep", "sets", int(sets)))
            if deepest[int(bsize), int(sets)] == int(ways):
                found.add(("sweep", "ways", int(ways)))
                if int(sets) == 8192:
                    found.add(("sweep", OF_MANY, int(ways)))
    if out and text.count(b"\n") >= min(REFERENCES):
        counts, entries = [0], model.read(job["format"], text)[0]
        for event in model.events_of(entries, job["kind"]):
            counts[-1] += event is not model.FLUSH
            counts += [0] * (event is model.FLUSH)
        found |= {("sweep", "references", count) for count in counts}
    return found & set(PLACES)


def kinds_of(arguments, text):
    """Of KINDS those that a case at a place has: the policies of its caches of so many ways, and
    what most of its first references lie apart, in the order of a set."""
    command, job, _ = model.parse(arguments)
    caches = job["caches"].values() if command in ("din", "log") else ()
    found = {(command, "policy", it["repl"]) for it in caches if it["ways"] >= min(WAYS)}
    least = {"sweep": lambda: min(bsize for bsize, *_ in model.table(job)).bit_length() - 1,
             "csim": lambda: job["b"]}
    bits = least[command]() if command in least else min(it["b"] for it in caches)
    entries = model.read(job.get("format", "l"), text)[0]
    refs = model.events_of([it for it in entries if it is not model.FLUSH], "u")
    blocks = [ref.addr >> bits for ref in refs[:40]]
    apart = collections.Counter(
        abs(one - other) // ((one - other) & (other - one))
        for sets in (1, 2, 3, 5) for one, other in zip(blocks, blocks[sets:]) if one != other)
    return found | {(command, "step", step) for step, _ in apart.most_common(1)} & {*KINDS}


def told(stood):
    """How many cases stand at each place, as a text."""
    of_size = collections.defaultdict(list)
    for command, what, size in dict.fromkeys(PLACES):
        of_size[size, what].append(f"{command} {stood[command, what, size]}")
    return "; ".join(f"{size:,} {what}: {', '.join(counts)}"
                     for (size, what), counts in of_size.items())
