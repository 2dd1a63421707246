"""Full tables, with misses by kind and copybacks, in the tools that make or read tables."""

import csv
import re

from base import EXAMPLES, ToolTest
from lib import table

SORT = EXAMPLES / "sort.din"
SPACE = "--bsize 16-32 --sets 1-4 --assoc 1-3 --size 64-256".split()
# the second cache misses less and moves more: (60 + 10) * 16, (40 + 5) * 32, (40 + 0) * 64
ROWS = """\
16,4,1,64,140,60,56,10,30,20,10
32,2,1,64,160,40,38,10,25,5,5
64,1,1,64,160,40,39,20,20,0,0
"""
TABLE = f"{table.FULL_HEADER}\n{ROWS}"


class BestOfFull(ToolTest):
    def best(self, text, *words):
        answer = self.good(self.run_tool("best", "-", *words, stdin=text.encode()))
        return answer.splitlines()

    def test_traffic(self):
        header, row = self.best(TABLE, "--traffic")
        self.assertEqual(header, f"{table.FULL_HEADER},traffic")
        self.assertEqual(row, "16,4,1,64,140,60,56,10,30,20,10,1120")
        rows = self.best(TABLE, "--measure", "traffic", "--rows", "3")[1:]
        self.assertEqual([row.split(",")[-1] for row in rows], ["1120", "1440", "2560"])

    def test_traffic_of_misses(self):
        header, *rows = self.best(TABLE, "--measure", "miss-traffic", "--rows", "3")
        self.assertEqual(header, f"{table.FULL_HEADER},miss-traffic")
        self.assertEqual([row.split(",")[-1] for row in rows], ["960", "1280", "2560"])
        plain = re.sub("(?m)^((?:[^,]*,){6}[^,]*),.*$", r"\1", TABLE)
        self.assertEqual(plain.split("\n")[0], table.HEADER)
        for words in (["--traffic"], ["--measure", "miss-traffic"]):
            header, row = self.best(plain, *words)
            self.assertEqual((header, row), (f"{table.HEADER},miss-traffic",
                                             "16,4,1,64,140,60,56,960"))

    def test_a_column(self):
        for column, wanted, share in (
            ("copybacks", "64,1,1", "0.000"), ("write-misses", "64,1,1", "0.000"),
            ("read-misses", "64,1,1", "10.000"), ("evictions", "32,2,1", "19.000"),
        ):
            header, row = self.best(TABLE, "--measure", column)
            self.assertEqual(header, f"{table.FULL_HEADER},percent")
            self.assertEqual(row[:6], wanted)
            self.assertEqual(row.split(",")[-1], share, column)

    def test_pages_and_answers(self):
        """A page has no header, and an answer may be read again."""
        wanted = [f"{table.FULL_HEADER},traffic", "16,4,1,64,140,60,56,10,30,20,10,1120"]
        answer = "".join(f"{line}\n" for line in self.best(TABLE, "--rows", "3"))
        for text in TABLE, ROWS, answer:
            self.assertEqual(self.best(text, "--traffic"), wanted)

    def test_refused(self):
        for text, fault in (
            (TABLE.replace("10,30,20,10", "10,30,21,10"),
             "line 2: misses are not the sum of those by kind"),
            (TABLE.replace("20,10\n", "20\n"), "line 2: no row of a sweep's table"),
            (TABLE.replace("20,10\n", "20,x\n"), "line 2: no row of a sweep's table"),
        ):
            ran = self.run_tool("best", "-", "--traffic", stdin=text.encode())
            self.refused(ran, 1, f"best: standard input: {fault}\n")
        ran = self.run_tool("best", "-", "--traffic", "--miss-cost", "9", stdin=TABLE.encode())
        self.refused(ran, 2, "--miss-cost is not allowed with --measure")


class MadeWithFull(ToolTest):
    def test_parallel(self):
        whole = self.sweep("--full", *SPACE, "-t", SORT)
        self.assertTrue(whole.startswith(f"{table.FULL_HEADER}\n"))
        for words in (["--full", *SPACE], [*SPACE, "--full"]):
            self.assertEqual(self.good(self.run_tool("sweep-parallel", "3", SORT, *words)), whole)
        pages = self.good(self.run_tool("sweep-parallel", "--pages", "3", "--full", *SPACE))
        parts = [self.sweep(*page.split(), "-t", SORT) for page in pages.splitlines()]
        self.assertEqual("".join(parts), whole)

    def test_warm(self):
        """The first line leaves block 1 dirty; one line evicts it for 2, and two hold it still."""
        self.write("trace", "1 10\n0 20\n2 10\n4 0\n")
        space = "--full --bsize 16 --sets 1 --assoc 1-2 --size 0-1k".split()
        wanted = "16,1,1,16,0,2,2,1,1,0,1\n16,1,2,32,1,1,0,0,1,0,1\n"
        answer = self.good(self.run_tool("warm", "1", "trace", *space))
        self.assertEqual(answer, f"{table.FULL_HEADER}\n{wanted}")
        # a flush copies back, but is no reference
        ran = self.run_tool("warm", "3", "trace", *space)
        self.refused(ran, 1, "warm: trace: no reference behind the first 3 lines\n")

    def test_three_c(self):
        made = [self.good(self.run_tool("three-c", SORT, *SPACE, *more)).splitlines()
                for more in ([], ["--full"])]
        plain, full = (list(csv.reader(lines)) for lines in made)
        self.assertEqual(full[0][:-3], table.FULL_HEADER.split(","))
        self.assertEqual([row[:7] + row[-3:] for row in full], plain)
        whole = self.sweep("--full", *SPACE, "-t", SORT).splitlines()
        self.assertEqual([",".join(row[:-3]) for row in full], whole)

    def test_second_level_refuses_it(self):
        """It writes a trace, not a table: the program says so."""
        ran = self.run_tool("second-level", SORT, "-l1-usize", "128", "-l1-ubsize", "16", "--full")
        self.assertEqual(ran.returncode, 2)
        self.assertIn(b"error: unexpected argument '--full'", ran.stderr)
