"""Compulsory, capacity and conflict misses."""

import csv
import random

import base
import reading_base

HEADER = "bsize,sets,assoc,size,hits,misses,evictions,compulsory,capacity,conflict\n"
SORT = base.EXAMPLES / "sort.din"
# a cache with more lines than a set may have ways
LARGE = "--bsize 1 --sets 128k --assoc 1 --size 128k"


def misses(events, bsize, sets, assoc):
    cache = base.Lru(bsize, sets, assoc)
    for event in events:
        cache.take(event)
    return cache.counts[1]


def first_references(events, bsize):
    seen, first = set(), 0
    for event in events:
        if event is base.model.FLUSH:
            seen = set()
        else:
            first += event.addr // bsize not in seen
            seen.add(event.addr // bsize)
    return first


def random_trace(lines, flushes=False):
    """Walks and repeated places, so that there are misses of all kinds."""
    drawn = random.Random(7)
    text = []
    for number in range(lines):
        places = number % 300 * 16, drawn.randrange(64) * 512, 0x9000 + drawn.randrange(40)
        place = drawn.choice(places)
        text.append(f"{drawn.choice('0012')} {place:x}")
        if flushes and drawn.random() < 0.003:
            text.append("4 0")
    return "\n".join(text).encode() + b"\n"


def walk(blocks, first=0):
    """A trace of each of so many bytes once."""
    return "".join(f"0 {place:x}\n" for place in range(first, first + blocks))


class ThreeC(reading_base.Reading, base.ToolTest):
    TOOL = "three-c"
    OPTIONS = "--bsize 16 --sets 1-4 --assoc 1-2 --size 64".split()

    def table(self, options, trace="-", **given):
        return self.good(self.run_tool("three-c", trace, *options.split(), **given))

    def judge(self, text, options, trace, format="d", kind="u", stdin=b""):
        """Compares rows with simulations of two caches, and with a count of first references."""
        answer = self.table(options, trace=trace, stdin=stdin)
        events = base.references(text, format, kind)
        rows = [{name: int(value) for name, value in row.items()}
                for row in csv.DictReader(answer.splitlines())]
        for row in rows:
            bsize, sets, assoc = row["bsize"], row["sets"], row["assoc"]
            first, all_misses = first_references(events, bsize), misses(events, bsize, sets, assoc)
            unshared = misses(events, bsize, 1, sets * assoc)
            counted = row["misses"], row["compulsory"], row["capacity"], row["conflict"]
            wanted = all_misses, first, unshared - first, all_misses - unshared
            self.assertEqual(counted, wanted, row)
        return rows

    def judge_rows(self, options, text, *rows):
        """Compares the whole table of a trace."""
        wanted = HEADER + "".join(f"{row}\n" for row in rows)
        self.assertEqual(self.table(options, stdin=text.encode()), wanted, len(text))

    def test_examples(self):
        space = "--bsize 16-64 --sets 1-16 --assoc 1-3 --size 256-1k"
        for name, format, kind, words in (
            ("transpose.lackey", "l", "d", "--format {} --kind={}"),
            ("blocks.lackey", "l", "d", "--format {} --kind={}"),
            ("sort.din", "d", "u", "--format={} --kind {}"),
            ("sort.din", "d", "i", "--format={} --kind {}"),
        ):
            trace, options = base.EXAMPLES / name, f"{space} {words.format(format, kind)}"
            rows = self.judge(trace.read_bytes(), options, trace, format, kind)
            self.assertEqual({row["bsize"] for row in rows}, {16, 32, 64})
            self.assertTrue(any(row["conflict"] > 0 for row in rows))

    def test_less_than_nothing(self):
        # three blocks in turn: two lines of a set always miss; of two sets one holds its only block
        self.judge_rows("--bsize 1 --sets 1-2 --assoc 1-2 --size 2", "0 0\n0 1\n0 2\n" * 4,
                        "1,1,2,2,0,12,10,3,9,0", "1,2,1,2,3,9,7,3,9,-3")

    def test_random_traces(self):
        space = "--bsize 8-64 --sets 1-32 --assoc 1-4 --size 512-2k --pow2"
        for flushes in (False, True):
            text = random_trace(4000, flushes)
            rows = self.judge(text, space, "-", stdin=text)
            self.assertTrue(any(row["capacity"] > 0 and row["conflict"] > 0 for row in rows))

    def test_it_asks_for_no_more_rows_than_it_needs(self):
        """Of powers of two alone, where the table has no others: each row of a fully associative
        cache is dear."""
        program = self.executable("cachesim", "set -o pipefail",
                                  f"'{base.PROGRAM}' \"$@\" | tee '{self.folder}/rows'$$")
        space = "--bsize 8 --sets 1-32 --assoc 1-4 --size 512-2k --pow2"
        table = self.table(space, trace=SORT, env={"CACHESIM": str(program)})
        asked = sum(path.read_text().count("\n") - 1 for path in self.folder.glob("rows*"))
        # the row by which the program is known; the three rows of an empty trace, and of this one;
        # fully associative caches of two sizes; and one for first references
        self.assertEqual((table.count("\n") - 1, asked), (3, 1 + 3 + 3 + 2 + 1))

    def test_a_flush_begins_anew(self):
        self.judge_rows("--bsize 1 --sets 2 --assoc 1 --size 2", "0 0\n0 1\n4 0\n0 0\n0 0\n",
                        "1,2,1,2,1,3,0,3,0,0")

    def test_more_lines_than_a_set_has(self):
        # two of three blocks share a set of 131,072 lines, so one of four misses is conflict
        self.judge_rows(LARGE, "0 0\n0 20000\n0 1\n0 0\n", "1,131072,1,131072,0,4,2,3,0,1")
        # as many blocks as lines, and one more
        text = walk(131072)
        self.judge_rows(LARGE, text, "1,131072,1,131072,0,131072,0,131072,0,0")
        self.judge_rows(LARGE, text + "0 20000\n", "1,131072,1,131072,0,131073,1,131073,,")

    def test_more_lines_than_a_set_has_and_flushes(self):
        """With no more different blocks between flushes than lines, none is a capacity miss: the
        part with the most blocks decides. Each part has so many blocks, from a first one on."""
        for parts, evictions, capacity in (
            ([(50000, 0)] * 3, 0, "0,0"), ([(50000, 0), (50000, 50000), (50000, 99999)], 0, "0,0"),
            ([(131072, 0)] * 2, 0, "0,0"), ([(131072, 0), (131072, 131072)], 0, "0,0"),
            ([(131072, 0), (70000, 0)], 0, "0,0"), ([(70000, 0), (131073, 0)], 1, ","),
            ([(131073, 9), (70000, 0)], 1, ","), ([(131073, 0)] * 2, 2, ","),
        ):
            misses = sum(blocks for blocks, _ in parts)
            text = " \t4\t7 note\r\n".join(walk(*part) for part in parts)
            counts = f"{misses},{evictions},{misses},{capacity}"
            self.judge_rows(LARGE, text, f"1,131072,1,131072,0,{counts}")

    def test_more_lines_than_a_set_has_and_conflicts_between_flushes(self):
        """More first references than lines, and a block that evicts another in each part."""
        part = walk(100000) + "0 20000\n0 0\n"
        self.judge_rows(LARGE, "4 0\n".join([part] * 2),
                        "1,131072,1,131072,0,200004,4,200002,0,2")
        # 513 blocks of one of 256 sets: that there is room for them in 131,072 lines is not known
        part = "".join(f"0 {block * 256:x}\n" for block in range(513))
        misses, evictions = 300 * 513, 300
        self.judge_rows(LARGE, "4 0\n".join([part] * 300),
                        f"1,131072,1,131072,0,{misses},{evictions},{misses},,")

    def test_too_many_blocks(self):
        # 16,385 blocks that are alike in their lowest 8 bits
        text = "".join(f"0 {block * 256:x}\n" for block in range(16385))
        space = "--bsize 1-2 --sets 1 --assoc 1 --size 1-2"
        ran = self.run_tool("three-c", "-", *space.split(), stdin=text.encode())
        self.refused(ran, 1, "three-c: -: too many different blocks of 1 bytes")
        self.judge_rows(space, text.partition("\n")[2], "1,1,1,1,0,16384,16383,16384,0,0",
                        "2,1,1,2,0,16384,16383,16384,0,0")

    def test_empty(self):
        self.judge_rows("--bsize 16 --sets 1 --assoc 1 --size 16", "", "16,1,1,16,0,0,0,0,0,0")
        self.judge_rows("--bsize 16 --sets 1 --assoc 1 --size 1", "")

    def test_pages(self):
        space = "--bsize 16-32 --sets 1-4 --assoc 1-2 --size 16-1k"
        first = self.table(f"{space} --rows 5", trace=SORT)
        last_row = ",".join(first.split("\n")[5].split(",")[:3])
        rest = self.table(f"{space} --after {last_row}", trace=SORT)
        self.assertEqual(first + rest, self.table(space, trace=SORT))

    def test_faults_of_arguments(self):
        for given, fault in (
            (["-"], "three-c: a trace and the options of a sweep are needed"),
            (["-", *self.OPTIONS, "-t", "x"], "three-c: the trace is the first argument"),
            (["-", *self.OPTIONS, "--sets", "1"], "error: "),
            (["-", "--bsize", "3", *self.OPTIONS[2:]], "cachesim: bsize: not a power of two\n"),
        ):
            self.refused(self.run_tool("three-c", *given), 2, fault)
