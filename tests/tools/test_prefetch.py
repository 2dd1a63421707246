"""The misses that prefetchers would have found."""

import random

import base
import log_base
from log_base import SORT, TRANSPOSE, shape

HEADER = "cache,prefetcher,misses,found,percent\n"
FIRST = "l1-i", "l1-d", "l1-u"


class Expected:
    """The rules of the tool's help, over the list of all arrivals, looked at backwards."""

    def __init__(self, place, bsize, size):
        self.place, self.bsize, self.size = place, bsize, size
        self.asked, self.misses = [], 0
        self.found = {"next-line": 0, "stride": 0, "either": 0}

    def next_line(self, block):
        """What was asked for last is at the end. Each block is there once."""
        is_found = block in self.asked
        self.asked = [one for one in self.asked if one not in (block, block + 1)] + [block + 1]
        self.asked = self.asked[-self.size:]
        return is_found

    def stride(self, block, history):
        """The addresses of an instruction, without those that are its last one again."""
        if len(history) < 3 or history[-1] - history[-2] != history[-2] - history[-3]:
            return False
        expected = 2 * history[-1] - history[-2]
        return expected // self.bsize == block != history[-1] // self.bsize

    def miss(self, address, history):
        block = address // self.bsize
        found = self.next_line(block), self.stride(block, history)
        self.misses += 1
        for name, is_found in zip(self.found, (*found, any(found))):
            self.found[name] += is_found

    def rows(self):
        for name, found in self.found.items():
            if name == "next-line" or self.place in ("l1-d", "l1-u"):
                percent = 100 * found / (self.misses or 1)
                yield f"{self.place},{name},{self.misses},{found},{percent:.3f}\n"


class Prefetch(log_base.Filtering, base.ToolTest):
    TOOL = "prefetch"

    def test_nothing(self):
        """Traces without a reference to the cache; of which one has a fetch."""
        line = HEADER + "l1-d,next-line,0,0,0.000\n"
        both = line + "l1-d,stride,0,0,0.000\nl1-d,either,0,0,0.000\n"
        for text, wanted in (b"", line), (b"3 1\n\n", line), (b"2 10\n", both):
            self.assertEqual(self.good(self.run_on("-", *self.CACHE, stdin=text)), wanted)

    def table(self, text, options, size, place):
        given = " ".join(map(str, options)).replace("=", " ").replace(" --", " -").split()
        caches = {name: Expected(name, int(given[given.index(f"-{name}bsize") + 1]), size)
                  for name in (*FIRST, "l2-u") if f"-{name}bsize" in given
                  and name.startswith(place or "l1-")}
        histories, instruction = {}, None
        for event, arrived in log_base.steps(text, options):
            if arrived is None:
                for cache in caches.values():
                    cache.asked = []
                continue
            history = []
            if event.access == "fetch":
                instruction = event.addr
            elif arrived:
                history = histories.setdefault(instruction, [])
            is_new = history[-1:] != [event.addr]
            for name, reference, missed in arrived:
                if name in caches and missed:
                    of_data = name != "l2-u" and is_new
                    caches[name].miss(reference.addr, history if of_data else [])
            if event.access != "fetch" and arrived and is_new:
                history.append(event.addr)
        rows = [row for cache in caches.values() for row in cache.rows()]
        return HEADER + "".join(row for row in rows if instruction is not None
                                or ",next-line," in row)

    def judge(self, text, options, size=16, place=None):
        own = [*["--buffer", size] * (size != 16), *[f"--cache={place}"] * bool(place)]
        answer = self.good(self.run_on("-", *options, *own, stdin=text))
        wanted = self.table(text, options, size, place)
        self.assertEqual(answer, wanted, (options, own))
        return wanted

    def test_examples(self):
        """Row by row the transposed matrix has a stride, and hardly a next line."""
        table = self.judge(TRANSPOSE, [*shape("l1-d", 32, 32, 1), "-informat", "l"])
        _, line, stride, *_ = table.splitlines()
        self.assertLess(5 * int(line.split(",")[3]), int(stride.split(",")[3]))
        for size in (1, 3, 16):
            self.judge(SORT, [*shape("l1-d", 16, 8, 2), *shape("l1-i", 16, 4, 1)], size)
            self.judge(SORT, shape("l1-u", 16, 8, 2), size)

    def test_random(self):
        """Caches of all shapes, policies and write modes, in both levels; flushes; each cache."""
        drawn = random.Random(3)
        for text, options, names in log_base.cases(4, 2):
            for place in (None, *names):
                self.judge(text, options, drawn.choice((1, 4, 16)), place)

    def test_instructions(self):
        """Loops of several instructions, each with a stride of its own, which may change."""
        drawn = random.Random(8)
        for _ in range(20):
            strides = [drawn.choice((0, 4, 8, -8, 24, 64, 200)) for _ in range(4)]
            places = [drawn.randrange(1 << 16) + (1 << 20) for _ in strides]
            lines = []
            for _ in range(150):
                for at, stride in enumerate(strides):
                    lines.append(f"2 {4 * at:x}\n{drawn.choice('01')} {places[at]:x}\n")
                    places[at] += stride if drawn.random() < 0.95 else drawn.randrange(999)
            self.judge("".join(lines).encode(), shape("l1-d", 16, 4, 2))

    def test_by_hand(self):
        """Blocks 1 to 5 in turn, by one instruction. The first miss asks for 2, and so on: all but
        the first are found. From the fourth on there is a stride."""
        text = "".join(f"2 0\n0 {block}0\n" for block in range(1, 6)).encode()
        answer = self.good(self.run_on("-", *shape("l1-d", 16, 1, 1), stdin=text))
        self.assertEqual(answer, HEADER + "l1-d,next-line,5,4,80.000\nl1-d,stride,5,2,40.000\n"
                         "l1-d,either,5,4,80.000\n")
        # a buffer of one block loses what was asked for before another miss
        text = "".join(f"0 {block:x}0\n" for block in (1, 8, 2, 9)).encode()
        for size, found in (1, 0), (2, 2):
            self.assertIn(f"next-line,4,{found},", self.judge(text, shape("l1-d", 16, 1, 1), size))

    def test_a_trace_without_fetches(self):
        text = b"0 10\n0 20\n0 30\n0 40\n"
        answer = self.good(self.run_on("-", *shape("l1-d", 16, 1, 1), stdin=text))
        self.assertEqual(answer, HEADER + "l1-d,next-line,4,3,75.000\n")

    def test_own_options(self):
        for words in ("--buffer=", "--buffer=0", "--buffer=x", "--buffer=2000000"):
            ran = self.run_on("-", *self.CACHE, words)
            self.refused(ran, 2, "--buffer must be a number of blocks from 1 to 1048576")
        self.refused(self.run_on("-", *self.CACHE, "--buffer"), 2, "expected one argument")
        self.refused(self.run_on("-", *self.CACHE, "--cache", "l2-u"), 2, "no option is of l2-u")
