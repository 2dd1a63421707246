"""The fewest misses that any replacement could have."""

import functools
import itertools
import random

import base
import reading_base
from lib import table

SORT = (base.EXAMPLES / "sort.din").read_bytes()
SPACE = "--bsize 8-32 --sets 1-8 --assoc 1-3 --size 64-512".split()
FAR = 1 << 40


class Belady:
    """A cache that knows the events to come: a miss in a full set evicts the block whose next
    reference is the farthest away."""

    def __init__(self, bsize, sets, ways):
        self.bsize, self.ways = bsize, ways
        self.sets = [{} for _ in range(sets)]  # by block where its next reference is
        self.hits = self.misses = self.evictions = 0

    def coming(self, events):
        """Of each event where its block's next reference is before a flush, or FAR."""
        uses, future = {}, [FAR] * len(events)
        for now in range(len(events) - 1, -1, -1):
            if events[now] is base.model.FLUSH:
                uses = {}
                continue
            block = events[now].addr // self.bsize
            future[now], uses[block] = uses.get(block, FAR), now
        return future

    def counts(self, events):
        for event, after in zip(events, self.coming(events)):
            if event is base.model.FLUSH:
                self.sets = [{} for _ in self.sets]
                continue
            block = event.addr // self.bsize
            held = self.sets[block % len(self.sets)]
            self.hits, self.misses = self.hits + (block in held), self.misses + (block not in held)
            if block not in held and len(held) == self.ways:
                del held[max(held, key=held.get)]
                self.evictions += 1
            held[block] = after
        return self.hits, self.misses, self.evictions


def least(events, bsize, sets, ways):
    """The fewest misses of all that a cache could evict at each miss, tried one after another."""
    flush = base.model.FLUSH

    def of_a_set(blocks):
        @functools.lru_cache(None)
        def rest(at, held):
            while at < len(blocks) and blocks[at] in held:
                at += 1
            if at == len(blocks):
                return 0
            if blocks[at] is flush:
                return rest(at + 1, frozenset())
            left = [held] if len(held) < ways else [held - {one} for one in held]
            return 1 + min(rest(at + 1, some | {blocks[at]}) for some in left)

        return rest(0, frozenset())

    places = [event if event is flush else event.addr // bsize for event in events]
    return sum(of_a_set([place for place in places if place is flush or place % sets == number])
               for number in range(sets))


def random_trace(drawn, length, span, flushes):
    """Repeats, neighbours, loops and jumps."""
    places, text = [0], []
    for number in range(length):
        places.append(drawn.choice((places[-1], places[-1] ^ 5, number % 50 * 4,
                                    drawn.randrange(span))))
        text.append(f"{drawn.choice('0012')} {places[-1]:x}\n")
        text += ["4 0\n"] * (drawn.random() < flushes)
    return "".join(text).encode()


class Optimal(reading_base.Reading, base.ToolTest):
    TOOL = "optimal"
    OPTIONS = SPACE

    def rows(self, text, *options):
        answer = self.good(self.run_tool("optimal", "-", *options, stdin=text))
        header, *lines = answer.splitlines()
        self.assertEqual(header, table.HEADER)
        return [tuple(map(int, line.split(","))) for line in lines]

    def judge(self, text, *options, format="d", of="u"):
        """Compares all rows with the model. Returns the table's misses."""
        options = (*options, "--format", format, "--kind", of)
        rows, events = self.rows(text, *options), base.references(text, format, of)
        for bsize, sets, ways, size, *counts in rows:
            self.assertEqual(size, bsize * sets * ways)
            self.assertEqual(tuple(counts), Belady(bsize, sets, ways).counts(events), rows)
        swept = self.sweep(*options, "-t", "/dev/stdin", stdin=text).splitlines()[1:]
        self.assertEqual([row[:4] for row in rows],
                         [tuple(map(int, line.split(",")[:4])) for line in swept])
        for row, line in zip(rows, swept):
            self.assertLessEqual(row[5], int(line.split(",")[5]), line)
        return [row[5] for row in rows]

    def test_by_hand(self):
        """Belady's rule on 1 2 3 1 2 3 in two ways: 3 takes the place of 2, then 2 that of 1."""
        text = "".join(f"0 {block}0\n" for block in "123123").encode()
        rows = self.rows(text, *"--bsize 16 --sets 1 --assoc 1-3 --size 0-1k".split())
        self.assertEqual(rows, [(16, 1, 1, 16, 0, 6, 5), (16, 1, 2, 32, 2, 4, 2),
                                (16, 1, 3, 48, 3, 3, 0)])

    def test_examples(self):
        space = "--bsize 16-64 --sets 1-16 --assoc 1-4 --size 256-1k".split()
        for name, format, kind in (("sort.din", "d", "u"), ("sort.din", "d", "i"),
                                   ("transpose.lackey", "l", "d"), ("blocks.lackey", "l", "u")):
            text = (base.EXAMPLES / name).read_bytes()
            self.assertGreater(len(self.judge(text, *space, format=format, of=kind)), 20)

    def test_random_traces(self):
        drawn = random.Random(3)
        for span, flushes in itertools.product((40, 400, 4000), (0, 0.02)):
            self.judge(random_trace(drawn, 250, span, flushes), "--bsize", "1-4", "--sets", "1-4",
                       "--assoc", "1-5", "--size", "0-1m")
            self.judge(random_trace(drawn, 4000, span, flushes / 5), "--bsize", "4-16", "--sets",
                       "1-8", "--assoc", "1-40", "--size", "0-1m", "--pow2")

    def test_no_replacement_is_better(self):
        """Compared with all choices of what is evicted."""
        drawn = random.Random(4)
        for number in range(30):
            text = random_trace(drawn, 30, 60, 0.05 * (number % 2))
            events = base.references(text)
            for bsize, sets, ways, _, _, misses, _ in self.rows(
                    text, *"--bsize 4-8 --sets 1-2 --assoc 1-4 --size 0-1m".split()):
                self.assertEqual(misses, least(events, bsize, sets, ways), text)

    def test_many_different_blocks(self):
        """More than there is room for at first; addresses at both ends."""
        text = "".join(f"0 {number * 0xfffffffffff:x}\n" for number in range(1 << 18))
        rows = self.rows(text.encode() * 2, *"--bsize 1 --sets 64k --assoc 3 --size 192k".split())
        wanted = Belady(1, 1 << 16, 3).counts(base.references(text.encode() * 2))
        self.assertEqual(rows, [(1, 1 << 16, 3, 3 << 16, *wanted)])
        text = b"0 0\n1 ffffffffffffffff\n2 0\n0 fffffffffffffff0\n"
        words = "--bsize 1-16 --sets 1 --assoc 1-2 --size 0-1m --pow2".split()
        self.assertEqual(self.judge(text, *words)[-2:], [4, 2])

    def test_pages_and_empty_tables(self):
        """Of a page, of no row, of an empty trace; a fault where there is no row, too."""
        whole = self.good(self.read("-", stdin=SORT))
        last = ",".join(whole.split("\n")[3].split(",")[:3])
        first, rest = (self.good(self.run_tool("optimal", "-", *SPACE, *more, stdin=SORT))
                       for more in (("--rows", "3"), ("--after", last)))
        self.assertEqual(first + rest, whole)
        nothing = [*SPACE[:-1], "1"]
        self.assertEqual(self.good(self.run_tool("optimal", "-", *nothing)), f"{table.HEADER}\n")
        self.refused(self.run_tool("optimal", "-", *nothing, stdin=b"7 1\n"), 1, "bad label")
        rows = self.good(self.run_tool("optimal", "-", *SPACE)).splitlines()[1:]
        self.assertEqual({line.split(",", 4)[4] for line in rows}, {"0,0,0"})

    def test_plot_and_best_take_it(self):
        self.write("rows.csv", self.good(self.read("-", stdin=SORT)))
        best = self.good(self.run_tool("best", "rows.csv"))
        self.assertEqual(best.splitlines()[0], f"{table.HEADER},percent")
        self.assertIn("Miss ratio", self.good(self.run_tool("plot", "rows.csv", "-")))

    def test_wrong_arguments(self):
        for words, told in ((["-"], "a trace and the options"), (["--bsize", "1"], "a trace and"),
                            (["-", "-t", "x"], "the trace is the first argument"),
                            (["-", "--bsize", "3"], "error: "),
                            (["-", "--full", "--bsize", "16", "--sets", "1", "--assoc", "1",
                              "--size", "16"], "--full: the optimum has no misses by kind")):
            self.refused(self.run_tool("optimal", *words), 2, told)

    def test_no_room_in_memory(self):
        text = "".join(f"0 {number:x}\n" for number in range(1 << 20)).encode()
        words = *map(str, (base.TOOLS / "optimal", "-")), *"--bsize 1 --sets 1 --assoc 1".split()
        self.run_tool("optimal", "--build")
        line = 'ulimit -v 20000; exec -a optimal "$0" l1-u 3 4 5 3< caches 4<> blocks 5<> uses'
        inner = base.TOOLS / "out/optimal"
        self.write("caches", "1\n1,1,1\n")
        log = text.replace(b"0 ", b"l1-u 0 ").replace(b"\n", b" miss\n")
        ran = self.run_command("bash", "-c", line, inner, stdin=log)
        self.refused(ran, 1, "optimal: too little memory\n")
        self.assertEqual(self.good(self.run_command(*words, "--size", "1", stdin=text)),
                         f"{table.HEADER}\n1,1,1,1,0,{1 << 20},{(1 << 20) - 1}\n")
