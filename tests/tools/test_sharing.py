"""Blocks that threads share: what `trace --threads` writes, and `by-line --shared` counts."""

import collections
import csv
import random

import base
import trace_base
from trace_base import TRACED, program_of, symbols_of, within

CACHE = base.cache("1k", 16)
COUNTS = "first-byte", "last-byte", "reads", "writes", "true-sharing", "false-sharing"
ROUNDS, COUNTERS = 20000, 4  # those of counters.c


class Sharing(base.ToolTest):
    def rows(self, trace, *options, bsize=16, **given):
        words = "--shared", *base.cache("1k", bsize), *options
        ran = self.run_tool("by-line", trace, *words, **given)
        rows = csv.DictReader(self.good(ran).splitlines())
        return [row | {name: int(row[name]) for name in ("thread", *COUNTS)} for row in rows]


def parts(accesses):
    """Of each block of 16 bytes what is done there: thread, first and last byte, and whether it is
    a write."""
    found = collections.defaultdict(list)
    for label, address, thread, size in accesses:
        for block in range(address // 16, (address + size - 1) // 16 + 1):
            first, last = max(address, 16 * block), min(address + size, 16 * block + 16) - 1
            found[block].append((thread, first % 16, last % 16, label == "1"))
    return found


def overlap(one, other):
    return one[1] <= other[2] and other[1] <= one[2]


def misses(there, thread):
    """The misses of a thread by true and by false sharing in a block, as its definition says."""
    own = [at for at, access in enumerate(there) if access[0] == thread]
    lost = [[access for access in there[before:at] if access[0] != thread and access[3]]
            for before, at in zip(own, own[1:])]
    begins = [number for number, writes in enumerate(lost, 1) if writes]
    ends = [*begins[1:], len(own)]
    is_true = [any(overlap(there[at], write) for at in own[begin:end] for write in lost[begin - 1])
               for begin, end in zip(begins, ends)]
    return is_true.count(True), is_true.count(False)


def expected(accesses):
    for block, there in parts(accesses).items():
        threads = {access[0] for access in there}
        if len(threads) < 2 or not any(access[3] for access in there):
            continue
        for thread in threads:
            own = [access for access in there if access[0] == thread]
            writes = sum(access[3] for access in own)
            yield (f"{16 * block:x}", thread, min(access[1] for access in own),
                   max(access[2] for access in own), len(own) - writes, writes,
                   *misses(there, thread))


class Counted(Sharing):
    def test_random(self):
        """Against the definition, on lists; also of what lies in two blocks."""
        drawn = random.Random(7)
        for _ in range(20):
            accesses = [(drawn.choice("01"), drawn.randrange(drawn.choice((40, 400))),
                         drawn.randrange(1, 4), drawn.choice((1, 2, 4, 8, 32))) for _ in range(400)]
            text = "".join("{} {:x} {} {}\n".format(*access) for access in accesses)
            rows = self.rows("-", "--by", "object", stdin=text.encode())
            found = [tuple(row[name] for name in ("block", "thread", *COUNTS)) for row in rows]
            self.assertEqual(sorted(found), sorted(expected(accesses)))
            totals = collections.Counter()
            for row in rows:
                totals[row["block"]] += row["true-sharing"] + row["false-sharing"]
            order = [totals[block] for block in dict.fromkeys(row["block"] for row in rows)]
            self.assertEqual(order, sorted(order, reverse=True))

    def test_by_hand(self):
        """A thread takes a byte that another wrote only after one that it had written itself."""
        begin = "1 10 1 4\n1 14 2 4\n"
        for text, *wanted in (
            (begin + "0 10 1 4\n", (1, 0, 1), (2, 0, 0)),
            (begin + "0 14 1 4\n", (1, 1, 0), (2, 0, 0)),
            (begin + "0 10 1 4\n0 14 1 4\n", (1, 1, 0), (2, 0, 0)),
            (begin + "0 13 1 2\n0 10 2\n", (1, 1, 0), (2, 0, 0)),
            # what both only read, and what one alone touches, is not shared
            ("0 10 1 4\n0 10 2 4\n1 20 1 4\n0 20 1 4\n",),
            # fetches, markers and flushes are no touch
            (begin + "2 10 1\n3 0 1\n4 0 1\n", (1, 0, 0), (2, 0, 0)),
        ):
            rows = self.rows("-", "--by", "object", stdin=text.encode())
            found = [(row["thread"], row["true-sharing"], row["false-sharing"]) for row in rows]
            self.assertEqual(sorted(found), wanted, text)

    def test_faults(self):
        for text in ("0 10\n", "0 10 0\n", "0 10 1 x\n", "x 10 1\n", "0 g 1\n", "\n",
                     "0 10 1 4 5\n", f"0 {1 << 64:x} 1\n", f"0 10 {1 << 32}\n",
                     "trace: a signal ended it\n"):
            text = f"0 1 1\n{text}".encode()
            ran = self.run_tool("by-line", "-", "--shared", *CACHE, stdin=text)
            self.refused(ran, 1, "by-line: line 2 is none of `trace --threads`\n")
        for words, told in ((["--shared", "--evicted-by"], "--shared goes without --evicted-by"),
                            (["--shared", "-informat", "l"], "--shared is for a din trace"),
                            (["--callers", "2"], "--callers and --skip-site are for --by site"),
                            (["--by", "object", "--source"], "--source is for --by line and --by")):
            self.refused(self.run_tool("by-line", "-", *CACHE, *words), 2, f"by-line: {told}")


@base.needs("gcc", "qemu-user", "binutils", "llvm")
class Traced(Sharing):
    def counters(self, *flags):
        """The rows of the counters of a program, of which each thread has one."""
        program = program_of(TRACED / "counters.c", "-g", *flags)
        words = "--threads", "--map", "map", "--output", "t.din", program
        self.assertEqual(self.good(self.run_tool("trace", *words)), f"{ROUNDS * COUNTERS}\n")
        place = symbols_of(program)["counters"]
        rows = self.rows("t.din", "--map", "map", "--by", "line,object,function", bsize=64)
        return [row for row in rows if row["function"] == "work"
                and within(place, int(row["block"], 16))]

    def test_counters(self):
        """Beside each other they lie in one block, and each thread has bytes of its own; with room
        between them none has a miss by sharing. Each is read and written ROUNDS times."""
        own = self.counters()
        self.assertEqual({(row["reads"], row["writes"]) for row in own}, {(ROUNDS, ROUNDS)})
        self.assertEqual([row["true-sharing"] for row in own], [0] * COUNTERS)
        self.assertEqual({row["object"] for row in own}, {"counters"})
        self.assertEqual(sorted((row["first-byte"], row["last-byte"]) for row in own),
                         [(8 * at, 8 * at + 7) for at in range(COUNTERS)])
        self.assertEqual({row["thread"] for row in own}, set(range(2, COUNTERS + 2)))
        own = self.counters("-DROOM=64")
        self.assertEqual(sum(row["false-sharing"] + row["true-sharing"] for row in own), 0)
        self.assertEqual(len({row["block"] for row in own}), COUNTERS)

    def test_one_counter_for_all(self):
        own = self.counters("-DONE")
        self.assertEqual([row["false-sharing"] for row in own], [0] * COUNTERS)

    def test_numbers(self):
        """The third field of a line is the thread, in the order in which they begin, and the fourth
        of a data reference its bytes."""
        program = program_of(TRACED / "counters.c", "-g")
        self.good(self.run_tool("trace", "--threads", "-o", "t.din", program))
        lines = [line.split() for line in (self.folder / "t.din").read_text().splitlines()]
        place = symbols_of(program)["counters"]
        work = symbols_of(program)["work"]
        self.assertEqual({len(line) for line in lines if line[0] == "2"}, {3})
        self.assertEqual({len(line) for line in lines if line[0] < "2"}, {4})
        own = [line for line in lines if line[0] < "2" and within(place, int(line[1], 16))]
        self.assertEqual({line[3] for line in own}, {"8"})
        runs = {line[2] for line in lines if within(work, int(line[1], 16))}
        self.assertEqual(runs, {str(number) for number in range(2, COUNTERS + 2)})
        self.assertEqual(lines[0][2], "1")

    def test_ignored(self):
        """cachesim and the tools read such a trace as any other."""
        self.good(self.run_tool("trace", "--threads", "-o", "t.din",
                                program_of(TRACED / "counters.c", "-g")))
        lines = (self.folder / "t.din").read_text().splitlines()[:3000]
        self.write("with.din", "".join(f"{line}\n" for line in lines))
        self.write("without.din", "".join(f"{' '.join(line.split()[:2])}\n" for line in lines))
        for words in ((base.PROGRAM, "sweep", *trace_base.SPACE, "-t"),
                      (base.TOOLS / "by-line",), (base.TOOLS / "by-page",)):
            more = [] if "sweep" in words else CACHE
            tables = [self.good(self.run_command(*words, trace, *more))
                      for trace in ("with.din", "without.din")]
            self.assertEqual(*tables)
