"""What follows the first lines of a trace, in caches warmed by them."""

import csv
import random

import base
import reading_base
from lib import table

SORT = base.EXAMPLES / "sort.din"
SPACE = "--bsize 8-32 --sets 1-8 --assoc 1-3 --size 64-512".split()
LACKEY = b"""==7== Lackey, a Valgrind tool
I  04016d80,3
 L 1ffeffe7e,1
 S 1ffeffe80,8

 M 0421c7cc,4
I  04016d83,5
--7-- a message
 M 1ffeffe80,4
 L 0421c7c0,8
 L 1ffeffe7e,1
"""


def counts(events, first, cache):
    """Hits, misses and evictions behind the first events, by a simulation of them all."""
    simulated = base.Lru(*cache)
    for number, event in enumerate(events):
        if number == first:
            simulated.went.clear()
        simulated.take(event)
    return simulated.counts


class Warm(reading_base.Reading, base.ToolTest):
    TOOL = "warm"
    BEFORE = (9,)
    OPTIONS = SPACE

    def judge(self, text, lines, format="d", kind="u"):
        (self.folder / "trace").write_bytes(text)
        arguments = [*SPACE, "--format", format, "--kind", kind]
        answer = self.good(self.run_tool("warm", lines, "trace", *arguments))
        rows = list(csv.DictReader(answer.splitlines()))
        self.assertEqual(answer.split("\n")[0], table.HEADER)
        self.assertGreater(len(rows), 5)
        events = base.references(text, format, kind)
        first = len(base.references(b"".join(text.splitlines(keepends=True)[:lines]), format, kind))
        for row in rows:
            cache = int(row["bsize"]), int(row["sets"]), int(row["assoc"])
            counted = int(row["hits"]), int(row["misses"]), int(row["evictions"])
            self.assertEqual(counted, counts(events, first, cache), (lines, cache))

    def test_din(self):
        text = SORT.read_bytes()
        for lines in (0, 1, 2500, 5845):
            self.judge(text, lines)
        self.judge(text, 1000, kind="d")
        self.judge(text * 6, 30000)  # more lines than are read at once

    def test_lackey(self):
        self.judge((base.EXAMPLES / "transpose.lackey").read_bytes(), 3000, "l", "d")
        # lines that are no references count, and a modify is never cut in two
        for lines in range(10):
            for kind in "ud":
                self.judge(LACKEY, lines, "l", kind)

    def test_lines_that_are_no_references(self):
        drawn = random.Random(3)
        ends = ["\n", " note\n", "\r\n"]
        text = "".join(f"{drawn.choice('00112334')} {drawn.randrange(600):x}{drawn.choice(ends)}"
                       for _ in range(400))
        text += "\n\n0 10"
        self.assertGreater(text.count("\n4 "), 20)
        for lines in (0, 57, 200, 399, 402):
            self.judge(text.encode(), lines)

    def test_nothing_follows(self):
        """Also in a table without rows, which else is its header, or nothing."""
        text, header = b"2 0\n0 10\n0 20\n3 0\n2 30", table.HEADER + "\n"
        for more, wanted in (["--rows", "0"], header), (["--after", "32,8,3"], ""), ([], None):
            for lines, kind in ((4, "u"), (2, "d"), (4, "i")) if more else ():
                ran = self.run_tool("warm", lines, "-", *SPACE, *more, "--kind", kind, stdin=text)
                self.assertEqual(self.good(ran), wanted)
            for lines, kind in ((5, "u"), (3, "d"), (5, "i"), (10**17, "u")):
                ran = self.run_tool("warm", lines, "-", *SPACE, *more, f"--kind={kind}", stdin=text)
                self.refused(ran, 1, f"warm: -: no reference behind the first {lines} lines\n")
        self.refused(self.run_tool("warm", 0, "-", *SPACE), 1, "no reference behind")

    def table(self, lines, *words):
        return self.good(self.run_tool("warm", lines, SORT, *words))

    def test_pages(self):
        first = self.table(700, *SPACE, "--rows", "4")
        last_row = ",".join(first.split("\n")[4].split(",")[:3])
        rest = self.table(700, *SPACE, "--after", last_row)
        self.assertEqual(first + rest, self.table(700, *SPACE))
        self.assertEqual(self.table(700, *SPACE[:-1], "1"), table.HEADER + "\n")

    def test_a_number_that_begins_with_0(self):
        table = self.table(700, *SPACE)
        self.assertEqual(self.table("0700", *SPACE), table)
        self.assertGreater(table.count("\n"), 1)

    def test_faults(self):
        for stdin, arguments, status, fault in (
            (b"0 10\n7 10\n0 10\n", ["1", "-", *SPACE], 1, "cachesim: line 2: bad label\n"),
            (b"0 10\n7 10\n0 10\n", ["2", "-", *SPACE], 1, "cachesim: line 2: bad label\n"),
            (b"", ["x", "-", *SPACE], 2, "warm: 'x' is no number of lines"),
            (b"", ["-1", "-", *SPACE], 2, "warm: '-1' is no number of lines"),
            (b"", ["1", "-"], 2,
             "warm: a number of lines, a trace and the options of a sweep are needed"),
            (b"", ["1", "-", *SPACE, "-tx"], 2, "warm: the trace is the second argument"),
            (b"", ["1", "-", *SPACE[:-2]], 2, "error: "),
        ):
            ran = self.run_tool("warm", *arguments, stdin=stdin)
            self.refused(ran, status, fault)
            self.assertTrue(status == 2 or ran.stderr.decode() == fault, "one message")
