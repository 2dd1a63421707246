#!/usr/bin/env python3
"""A literal model of the program, to compare it with.

It follows the definitions in docs/definitions.md and docs/manual.md alone, and shares nothing with
the program. Where the program is quick, the model is plain: a text is cut into lines first, a
reference looks back over all that came before it, a cache is a map of stamps, a table is a filter
of all triples. tests/fuzz compares the two on random input, and 'tests/run --program
tests/model.py' runs the model on the cases, except for the texts of the library that reads the
arguments.

    tests/model.py WORD..       writes what the program would write
"""

import re
import sys
import unicodedata
from dataclasses import dataclass, field

MAX_LINE = 4096
FLUSH = "flush"


class Fault(Exception):
    """The text of a fault, and the status that the program ends with."""

    def __init__(self, text, status=1):
        self.text, self.status = text, status


class Usage(Exception):
    """Arguments that are refused before any value is read, or ask for help."""

    def __init__(self, help=False):
        self.help = help


# ---- lines

@dataclass(frozen=True)
class Item:
    op: str  # I, L, S or M, as lackey has them
    addr: int
    size: int


def lines_of(text):
    """The pieces between LFs; an empty last piece is not a line."""
    pieces = text.split(b"\n")
    return pieces[:-1] if pieces[-1] == b"" else pieces


def fields_of(line):
    """The longest runs of bytes that are no blanks, without blanks and returns at the end."""
    return re.findall(rb"[^ \t]+", line.rstrip(b" \t\r"))


def meaning(format, line):
    """An item, FLUSH, or None for a skipped line. A fault is of the leftmost wrong field."""
    return din_meaning(line) if format == "d" else lackey_meaning(line)


def din_meaning(line):
    fields = fields_of(line)
    if not fields:
        return None
    if fields[0] not in (b"0", b"1", b"2", b"3", b"4"):
        raise Fault("bad label")
    address = re.fullmatch(rb"(?:0[xX])?([0-9a-fA-F]{1,16})", b"".join(fields[1:2]))
    if not address:
        raise Fault("bad address")
    addr = int(address.group(1), 16)
    op = {b"0": "L", b"1": "S", b"2": "I"}.get(fields[0])
    return Item(op, addr, 0) if op else FLUSH if fields[0] == b"4" else None


def lackey_meaning(line):
    fields = fields_of(line)
    if not fields or line[:1] in (b"=", b"-", b"*"):
        return None
    if fields[0] not in (b"I", b"L", b"S", b"M"):
        raise Fault("bad label")
    address, comma, size = fields[1].partition(b",") if len(fields) > 1 else (b"", b"", b"")
    if not re.fullmatch(rb"[0-9a-fA-F]{1,16}", address):
        raise Fault("bad address")
    if not re.fullmatch(rb"[0-9]{1,9}", size):
        raise Fault("bad size")
    return Item(fields[0].decode(), int(address, 16), int(size))


def read(format, text):
    """The entries of a text up to its first fault, and that fault, if there is one."""
    entries = []
    for number, line in enumerate(lines_of(text), 1):
        if len(line) > MAX_LINE:
            return entries, Fault(f"line {number}: longer than {MAX_LINE} bytes")
        try:
            entry = meaning(format, line)
        except Fault as fault:
            return entries, Fault(f"line {number}: {fault.text}")
        if entry is not None:
            entries.append(entry)
    return entries, None


@dataclass(frozen=True)
class Ref:
    access: str  # fetch, read or write
    addr: int


def refs_of(item):
    accesses = {"I": ["fetch"], "L": ["read"], "S": ["write"], "M": ["read", "write"]}
    return [Ref(access, item.addr) for access in accesses[item.op]]


def events_of(entries, kind):
    """The references of the kind, and every flush."""
    events, are_fetches = [], {"u": (True, False), "i": (True,), "d": (False,)}[kind]
    for entry in entries:
        if entry is FLUSH:
            events.append(FLUSH)
        else:
            events += [ref for ref in refs_of(entry) if (ref.access == "fetch") in are_fetches]
    return events


# ---- counts by looking back

def windows(events, s, b):
    """For each reference the distance to the last reference to its block, and how many blocks of
    its set were seen.

    Both look back no further than the last flush. The distance is the number of different blocks of
    the set in between, and None where the block wasn't referenced before."""
    found, of_set = [], {}  # blocks of each set since the last flush, the latest first
    for event in events:
        if event is FLUSH:
            of_set = {}
            continue
        block = event.addr >> b
        before = of_set.setdefault(block % 2**s, [])
        distance = len(set(before[: before.index(block)])) if block in before else None
        found.append((distance, len(set(before))))
        before.insert(0, block)
    return found


def lookups(places, ways):
    """Whether each reference hits, misses or evicts in a cache of this many ways."""
    hits = [distance is not None and distance < ways for distance, _ in places]
    return ["hit" if hit else "miss eviction" if seen >= ways else "miss"
            for hit, (_, seen) in zip(hits, places)]


def counts(places, ways):
    went = lookups(places, ways)
    return went.count("hit"), len(went) - went.count("hit"), went.count("miss eviction")


# ---- csim

def csim(job, text, write):
    entries, fault = read("l", text)
    places = windows(events_of(entries, "d"), job["s"], job["b"])
    went = lookups(places, job["E"])
    if job["verbose"]:
        ahead = iter(went)
        for item in entries:
            if item.op != "I":
                words = " ".join(next(ahead) for _ in refs_of(item))
                write(f"{item.op} {item.addr:x},{item.size} {words}\n")
    if fault:
        raise fault
    write("hits:%d misses:%d evictions:%d\n" % counts(places, job["E"]))


# ---- din and log

def random_words(seed):
    """The words of PCG's XSH RR generator of 64 bits of state, on stream 54."""
    mask, multiplier, increment = 2**64 - 1, 6364136223846793005, 54 * 2 + 1
    state = (seed + increment) & mask
    state = (state * multiplier + increment) & mask
    while True:
        mixed = ((state >> 18 ^ state) >> 27) & 0xFFFFFFFF
        turn = state >> 59
        yield (mixed >> turn | mixed << (32 - turn)) & 0xFFFFFFFF
        state = (state * multiplier + increment) & mask


STATISTICS = ("fetch", "read", "write", "fetch miss", "read miss", "write miss", "evictions",
              "copybacks")


@dataclass
class Machine:
    """A cache as a map from each held block to its key and whether it is dirty.

    The key is the time of the last touch (LRU), the time of placing (FIFO) or the way (random)."""

    s: int
    ways: int
    b: int
    repl: str
    walloc: str
    wback: str
    words: object
    clock: int = 0
    held: dict = field(default_factory=dict)
    went: str = ""  # how the last step went, as a line of log says it
    stats: dict = field(default_factory=lambda: dict.fromkeys(STATISTICS, 0))

    def step(self, ref):
        """Takes a reference, and returns what is sent to the next level."""
        self.clock += 1
        block, down = ref.addr >> self.b, []
        hit = block in self.held
        self.went = "hit" if hit else "miss"
        self.stats[ref.access] += 1
        self.stats[f"{ref.access} miss"] += not hit
        if hit:
            if self.repl == "l":
                self.held[block][0] = self.clock
        elif ref.access != "write" or self.walloc == "a":
            self.place(block, down)
            down.append(Ref("fetch" if ref.access == "fetch" else "read", block << self.b))
        if ref.access == "write":
            if self.wback == "n" or block not in self.held:
                down.append(ref)
            else:
                self.held[block][1] = True
        return down

    def place(self, block, down):
        mates = [other for other in self.held if other % 2**self.s == block % 2**self.s]
        key = len(mates) if self.repl == "r" else self.clock
        if len(mates) == self.ways:
            if self.repl == "r":
                key = next(self.words) % self.ways
                victim = next(other for other in mates if self.held[other][0] == key)
            else:
                victim = min(mates, key=lambda other: self.held[other][0])
            dirty = self.held.pop(victim)[1]
            self.stats["evictions"] += 1
            self.went = f"miss eviction {victim << self.b:x}" + " dirty" * dirty
            if dirty:
                self.stats["copybacks"] += 1
                down.append(Ref("write", victim << self.b))
        self.held[block] = [key, False]

    def flush(self):
        """Empties the cache, and answers how many dirty blocks it held."""
        dirty = sum(1 for _, is_dirty in self.held.values() if is_dirty)
        self.stats["copybacks"] += dirty
        self.held = {}
        return dirty

    def line(self, name):
        st = self.stats
        return (
            f"{name} fetches={st['fetch']} fetch-misses={st['fetch miss']} reads={st['read']}"
            f" read-misses={st['read miss']} writes={st['write']} write-misses={st['write miss']}"
            f" evictions={st['evictions']} copybacks={st['copybacks']}\n"
        )


CACHES = ("l1-i", "l1-d", "l1-u", "l2-u")


def machines_of(job):
    shapes = job["caches"].items()
    return {name: Machine(**shape, words=random_words(job["seed"])) for name, shape in shapes}


def din(job, text, write):
    entries, fault = read(job["format"], text)
    if fault:
        raise fault
    caches = machines_of(job)
    memory, bypassed = {"read": 0, "write": 0}, 0
    for event in events_of(entries, "u"):
        if event is FLUSH:
            memory["write"] += sum(cache.flush() for cache in caches.values())
            continue
        own = "l1-i" if event.access == "fetch" else "l1-d"
        first = caches.get("l1-u") or caches.get(own)
        if first is None:
            bypassed += 1
            continue
        down = first.step(event)
        if "l2-u" in caches:
            down = [below for ref in down for below in caches["l2-u"].step(ref)]
        for ref in down:
            memory["write" if ref.access == "write" else "read"] += 1
    for name in CACHES:
        if name in caches:
            write(caches[name].line(name))
    write(f"memory reads={memory['read']} writes={memory['write']}\nbypassed={bypassed}\n")


def log(job, text, write):
    entries, fault = read(job["format"], text)
    caches = machines_of(job)

    def arrives(ref, places):
        """A reference at the first of these places, and then, one by one, what it sends down."""
        place, *lower = places
        line = f"{place} {('read', 'write', 'fetch').index(ref.access)} {ref.addr:x}"
        if place not in caches:
            write(f"{line}\n")
            return
        down = caches[place].step(ref)
        write(f"{line} {caches[place].went}\n")
        for below in down:
            arrives(below, lower)

    for event in events_of(entries, "u"):
        if event is FLUSH:
            for name in CACHES:
                if name in caches:
                    write(f"{name} flush {caches[name].flush()}\n")
            continue
        own = "l1-i" if event.access == "fetch" else "l1-d"
        first = [name for name in ("l1-u", own) if name in caches]
        below = [*(name for name in caches if name == "l2-u"), "memory"]
        arrives(event, [*first, *below] if first else ["bypassed"])
    if fault:
        raise fault


# ---- sweep

POWERS = {2**k for k in range(64)}


def is_power(n):
    return n in POWERS


def table(space):
    """All valid triples, rising."""
    bsizes = [2**k for k in range(21) if space["bsize"][0] <= 2**k <= space["bsize"][1]]
    sets = [2**k for k in range(21) if space["sets"][0] <= 2**k <= space["sets"][1]]
    low, high = space["size"]
    ways = range(space["assoc"][0], space["assoc"][1] + 1)
    ways = [e for e in ways if is_power(e) or not space["pow2"]]
    for b in bsizes:
        for s in sets:
            for e in ways:
                if e * s <= 2**22 and low <= b * s * e <= high:
                    yield b, s, e


HEADER = "bsize,sets,assoc,size,hits,misses,evictions"
MORE_OF_FULL = ("fetch miss", "read miss", "write miss", "copybacks")


def sweep(job, text, write):
    entries, fault = read(job["format"], text)
    if fault:
        raise fault
    events = events_of(entries, job["kind"])
    rows = [row for row in table(job) if job["after"] is None or row > job["after"]]
    if job["after"] is None:
        more = ",fetch-misses,read-misses,write-misses,copybacks" if job["full"] else ""
        write(f"{HEADER}{more}\n")
    looked = {}
    for b, s, e in rows[: job["rows"]]:
        bits = s.bit_length() - 1, b.bit_length() - 1
        if job["full"]:
            numbers = full_counts(events, *bits, e)
        else:
            if (b, s) not in looked:
                looked[b, s] = windows(events, *bits)
            numbers = counts(looked[b, s], e)
        write(",".join(map(str, (b, s, e, b * s * e, *numbers))) + "\n")


def full_counts(events, s, b, ways):
    """The counts of a row of --full: what one LRU cache that allocates at writes and writes back
    counts. What it holds dirty at the end is not copied back."""
    cache = Machine(s, ways, b, repl="l", walloc="a", wback="a", words=None)
    for event in events:
        if event is FLUSH:
            cache.flush()
        else:
            cache.step(event)
    stats = cache.stats
    more = [stats[name] for name in MORE_OF_FULL]
    misses = sum(more[:3])
    hits = stats["fetch"] + stats["read"] + stats["write"] - misses
    return [hits, misses, stats["evictions"], *more]


# ---- words

def number(text):
    if re.fullmatch("[0-9]+", text) and int(text) < 2**64:
        return int(text)


def scaled(text):
    found = re.fullmatch("([0-9]+)([kKmMgG]?)", text)
    if found:
        scales = {"": 1, "k": 2**10, "m": 2**20, "g": 2**30}
        value = int(found.group(1)) * scales[found.group(2).lower()]
        return value if value < 2**64 else None


def range_of(text):
    ends = [scaled(end) for end in text.split("-")]
    if None not in ends and len(ends) in (1, 2):
        return ends[0], ends[-1]


def triple(text):
    parts = [number(part) for part in text.split(",")]
    if None not in parts and len(parts) == 3:
        return tuple(parts)


def power(text):
    value = scaled(text)
    return value if value is not None and is_power(value) else None


def one_of(letters):
    return lambda text: text if text in list(letters) else None


@dataclass(frozen=True)
class Option:
    name: str  # as the manual has it
    reader: object  # None for a flag, str for a file
    required: bool = False

    def spelled(self):
        """What the words have to say: one dash and a letter, or two dashes and a word."""
        return self.name if len(self.name) == 2 or self.name.startswith("--") else "-" + self.name


FILE = Option("-t", str)
OF_A_CACHE = {"size": power, "sets": power, "bsize": power, "assoc": number, "repl": one_of("lfr"),
              "walloc": one_of("an"), "wback": one_of("an")}
OPTIONS = {
    "csim": [Option(name, number, True) for name in ("-s", "-E", "-b")]
    + [Option("-t", str, True), Option("-v", None)],
    "din": [Option(f"-{cache}{word}", reader)
            for cache in CACHES for word, reader in OF_A_CACHE.items()]
    + [Option("-informat", one_of("dl")), Option("--seed", number), FILE],
    "sweep": [Option(f"--{name}", range_of, True) for name in ("bsize", "sets", "assoc", "size")]
    + [Option("--kind", one_of("udi")), Option("--format", one_of("dl")), Option("--after", triple)]
    + [Option("--rows", number), Option("--pow2", None), Option("--full", None), FILE],
}
OPTIONS["log"] = OPTIONS["din"]


def given(options, words):
    """The text of each option that is given: a small part of what the library does."""
    found, left = {}, list(words)
    by_spelling = {option.spelled(): option for option in options}

    def take(option, attached):
        if option.name in found:
            raise Usage
        if option.reader is None:
            found[option.name] = ""
        elif attached is not None:
            found[option.name] = attached
        elif left and (left[0] == "-" or not left[0].startswith("-")):
            found[option.name] = left.pop(0)
        else:
            raise Usage

    while left:
        word = left.pop(0)
        if word == "--":
            if left:
                raise Usage
        elif word.startswith("--"):
            spelling, sign, value = word.partition("=")
            if spelling == "--help" and not sign:
                raise Usage(help=True)
            option = by_spelling.get(spelling)
            if option is None or sign and option.reader is None:
                raise Usage
            take(option, value if sign else None)
        elif word.startswith("-") and len(word) > 1:
            letters = word[1:]
            while letters:
                letter, letters = letters[0], letters[1:]
                if letter == "h":
                    raise Usage(help=True)
                option = by_spelling.get(f"-{letter}")
                if option is None:
                    raise Usage
                if option.reader is None:
                    take(option, None)
                else:
                    take(option, letters.removeprefix("=") if letters else None)
                    break
        else:
            raise Usage
    if any(option.required and option.name not in found for option in options):
        raise Usage
    return found


def respelled(word):
    return "-" + word if word.startswith(("-l1-", "-l2-")) or word == "-informat" else word


def parse(words):
    """The command, its job and the file's name, or what is wrong with the words."""
    if words and words[0] in ("-h", "--help"):
        raise Usage(help=True)
    if not words or words[0] not in OPTIONS:
        raise Usage
    command, rest = words[0], words[1:]
    if command in ("din", "log"):
        rest = [respelled(word) for word in rest]
    texts = given(OPTIONS[command], rest)
    values = {}
    for option in OPTIONS[command]:
        if option.name in texts and option.reader not in (None, str):
            values[option.name] = option.reader(texts[option.name])
            if values[option.name] is None:
                raise Fault(f"{option.name}: bad value", 2)
    jobs = {"csim": csim_job, "din": din_job, "log": din_job, "sweep": sweep_job}
    return command, jobs[command](values, texts), texts.get("-t")


def is_geometry(s, e, b):
    return s <= 20 and b <= 20 and 1 <= e <= 65536 and e * 2**s <= 2**22


def csim_job(values, texts):
    job = {"s": values["-s"], "E": values["-E"], "b": values["-b"], "verbose": "-v" in texts}
    if not is_geometry(job["s"], job["E"], job["b"]):
        raise Fault("bad geometry", 2)
    return job


def din_job(values, texts):
    caches = {}
    for cache in CACHES:
        own = {word: values.get(f"-{cache}{word}") for word in OF_A_CACHE}
        if any(value is not None for value in own.values()):
            if own["size"] is None and own["sets"] is None or own["bsize"] is None:
                raise Fault(f"{cache}: size and bsize are needed", 2)
            told = {word: value for word, value in own.items() if value is not None}
            caches[cache] = {"assoc": 1, "repl": "l", "walloc": "a", "wback": "a", **told}
    if not any(cache.startswith("l1") for cache in caches):
        raise Fault("no first-level cache", 2)
    if "l1-u" in caches and ("l1-i" in caches or "l1-d" in caches):
        raise Fault("unified cache beside a split first level", 2)
    machines = {}
    for name, cache in caches.items():
        ways = cache["assoc"]
        found = [(s, b) for s in range(21) for b in range(21)
                 if cache["bsize"] == 2**b and cache.get("sets", 2**s) == 2**s
                 and cache.get("size", ways * 2 ** (b + s)) == ways * 2 ** (b + s)
                 and is_geometry(s, ways, b)]
        if not found:
            raise Fault(f"{name}: bad geometry", 2)
        own = {option: cache[option] for option in ("repl", "walloc", "wback")}
        machines[name] = {"s": found[0][0], "b": found[0][1], "ways": ways, **own}
    bsizes = [cache["bsize"] for cache in caches.values()]
    if "l2-u" in caches and caches["l2-u"]["bsize"] < max(bsizes):
        raise Fault("l2-u: block size smaller than in the first level", 2)
    format, seed = values.get("-informat", "d"), values.get("--seed", 42)
    return {"caches": machines, "format": format, "seed": seed}


def sweep_job(values, texts):
    for name, least, most in (
        ("bsize", 1, 2**20), ("sets", 1, 2**20), ("assoc", 1, 65536), ("size", 0, 2**64),
    ):
        low, high = values[f"--{name}"]
        if name in ("bsize", "sets") and not (is_power(low) and is_power(high)):
            raise Fault(f"{name}: not a power of two", 2)
        if not (least <= low <= most and least <= high <= most):
            raise Fault(f"{name}: out of limits", 2)
        if low > high:
            raise Fault(f"{name}: reversed range", 2)
    job = {name: values[f"--{name}"] for name in ("bsize", "sets", "assoc", "size")}
    job.update(kind=values.get("--kind", "u"), format=values.get("--format", "d"))
    job.update(after=values.get("--after"), rows=values.get("--rows"))
    job.update(pow2="--pow2" in texts, full="--full" in texts)
    return job


# ---- the program

def run(words, stdin, text_of):
    """What the program writes to standard output and standard error, and its status. `stdin` gives
    the text of standard input, `text_of` that of a file. Of the texts of the library that reads the
    words there are only the first words here."""
    written = []
    try:
        command, job, name = parse(words)
        text = stdin() if name is None else text_of(name)
        {"csim": csim, "din": din, "log": log, "sweep": sweep}[command](job, text, written.append)
    except Usage as usage:
        return ("Usage:", "", 0) if usage.help else ("", "cachesim: error:", 2)
    except Fault as fault:
        return "".join(written), f"cachesim: {fault.text}\n", fault.status
    return "".join(written), "", 0


def file_text(name):
    try:
        with open(name, "rb") as file:
            return file.read()
    except IsADirectoryError:
        raise Fault("line 1: read failed")
    except OSError:
        shown = (f"\\x{ord(letter):02x}" if unicodedata.category(letter) == "Cc" else letter
                 for letter in name)
        raise Fault(f"cannot open {''.join(shown)}")


def main():
    out, err, status = run(sys.argv[1:], sys.stdin.buffer.read, file_text)
    sys.stdout.write(out)
    sys.stderr.write(err)
    return status


if __name__ == "__main__":
    sys.exit(main())
