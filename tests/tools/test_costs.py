"""What misses cost: traffic and access time, compared by best and drawn by plot."""

import csv
import re

from base import needs, rows_of
from lib import table
from test_plot import PlotTest

# Hennessy and Patterson, Computer Architecture (fifth edition), figures B.11 and B.12: miss ratios
# in per cent and access times in cycles, for blocks of 16 to 256 bytes and four cache sizes, where
# a miss takes 80 cycles and 2 for each 16 bytes of the block, and a hit 1 cycle
BLOCKS = (16, 32, 64, 128, 256)
RATIOS = {4096: (857, 724, 700, 778, 951), 16384: (394, 287, 264, 277, 329),
          65536: (204, 135, 106, 102, 115), 262144: (109, 70, 51, 49, 49)}
TIMES = {4096: ("8.027", "7.082", "7.160", "8.469", "11.651"),
         16384: ("4.231", "3.411", "3.323", "3.659", "4.685"),
         65536: ("2.673", "2.134", "1.933", "1.979", "2.288"),
         262144: ("1.894", "1.588", "1.449", "1.470", "1.549")}
MISSES = {(bsize, size // bsize, 1): missed for size, ratios in RATIOS.items()
          for bsize, missed in zip(BLOCKS, ratios)}
# a cache of which not all lines are filled has evicted nothing
TEXT = f"{table.HEADER}\n{re.sub('-[0-9]+', '0', rows_of(10000, MISSES))}"
BOOK = "--miss-cost", "80+2/16"
# what is asked, of which table, a column of the answer, and what it has
ANSWERS = (
    # the same cost for each byte, one without it, and fractions, of 7.24 per cent
    *((f"--miss-cost {cost}", "one.csv", "AMAT", time) for cost, time in (
        ("80+2/16", "7.082"), ("80+0.125", "7.082"), ("80", "6.792"), ("80+1/8", "7.082"),
        ("0+1", "3.317"), ("0", "1"), ("0.5", "1.036"))),
    ("--measure traffic --rows 9", "4096.csv", "bsize", "16 32 64 128 256"),
    ("--measure traffic --rows 9", "4096.csv", "miss-traffic", "13712 23168 44800 99584 243456"),
    # a column of that name is what is compared
    ("--measure traffic", "named.csv", "traffic", "7"),
    # exactly, in cycles: 1 + 84 * 724 / 10,000 and 1 + 88 * 700 / 10,000
    ("--miss-cost 80+2/16 --below 7.1599", "4096.csv", "bsize", "32"),
    ("--miss-cost 80+2/16 --below 7.16", "4096.csv", "bsize", "32 64"),
    ("--miss-cost 80+2/16 --below 7.0816", "4096.csv", "bsize", "32"),
    ("--miss-cost 80+2/16 --within 1.2", "4096.csv", "bsize", "32 64"),
    ("--miss-cost 80+2/16 --front", "t.csv", "bsize", "32 64 64 64"),
    ("--miss-cost 80+2/16 --front", "t.csv", "size", "4096 16384 65536 262144"),
    ("--miss-cost 80+2/16", "none.csv", "AMAT", "1"),
    ("--measure traffic", "none.csv", "miss-traffic", "0"),
)
WRONG = "x", "", "80+", "80+2/0", "80+2/", "80*2", "-1", "80+2/1.5", "1e3", "1/2", "1234567890"


class Costs(PlotTest):
    def setUp(self):
        super().setUp()
        self.write("t.csv", TEXT)
        lines = TEXT.splitlines(keepends=True)
        for size in RATIOS:
            own = [line for line in lines if line.split(",")[3] in ("size", str(size))]
            self.write(f"{size}.csv", "".join(own))
        self.write("one.csv", next(line for line in lines if line.startswith("32,128,1,4096,")))
        self.write("none.csv", "16,1,1,16,0,0,0\n")
        self.write("named.csv", f"{table.HEADER},traffic\n64,1,1,64,50,50,49,7\n"
                   "32,1,1,32,50,50,49,9\n")
        self.write("din.csv", "l1-usize,l1-u-references,l1-u-misses,bypassed\n64,9,5,0\n")

    def best(self, *words, **given):
        text = self.good(self.run_tool("best", *words, **given))
        return text.splitlines()[0], [*csv.DictReader(text.splitlines())]

    def test_access_times(self):
        header, rows = self.best("t.csv", *BOOK, "--rows", "20")
        self.assertEqual(header, f"{table.HEADER},AMAT")
        got = {(int(row["size"]), int(row["bsize"])): row["AMAT"] for row in rows}
        wanted = {(size, bsize): time for size, times in TIMES.items()
                  for bsize, time in zip(BLOCKS, times)}
        self.assertEqual(got, wanted)
        times = [float(row["AMAT"]) for row in rows]
        self.assertEqual(times, sorted(times))

    def test_the_best_block_of_each_size(self):
        """The fewest misses have larger blocks than the shortest time, and that than the least
        traffic."""
        for size, by_misses, by_time in ((4096, 64, 32), (16384, 64, 64), (65536, 128, 64),
                                         (262144, 128, 64)):
            for words, wanted in ((), by_misses), (BOOK, by_time), (("--measure", "traffic"), 16):
                _, rows = self.best(f"{size}.csv", *words, "--rows", "1")
                self.assertEqual(int(rows[0]["bsize"]), wanted, (size, words))

    def test_answers(self):
        for words, file, column, wanted in ANSWERS:
            got = [row[column] for row in self.best(file, *words.split())[1]]
            self.assertEqual(" ".join(got), wanted, words)
        header, _ = self.best("4096.csv", "--measure", "traffic")
        self.assertEqual(header, f"{table.HEADER},miss-traffic")
        answer = self.run_tool("best", "4096.csv", "--measure", "traffic", "--rows", "2").stdout
        _, rows = self.best("-", "--measure", "traffic", stdin=answer)
        self.assertEqual([row["miss-traffic"] for row in rows], ["13712"])

    def test_refused(self):
        ran = self.run_tool("best", "4096.csv", *BOOK, "--below", "7.0815")
        said = "no cache has at most 7.0815 AMAT; the least is 7.0816\n"
        self.refused(ran, 1, f"best: 4096.csv: {said}")
        for tool, *out in ("best",), ("plot", "a.svg"):
            for cost in WRONG:
                ran = self.run_tool(tool, f"--miss-cost={cost}", "t.csv", *out)
                self.refused(ran, 2, f"'{cost}' is no cost such as 100, 80+0.125 or 80+2/16")
            ran = self.run_tool(tool, *BOOK, "--measure", "hits", "t.csv", *out)
            self.refused(ran, 2, f"{tool}: --miss-cost is not allowed with --measure; ")
            for tables in ["din.csv"], ["din.csv"] * 2:
                if tool == "plot" or len(tables) == 1:
                    ran = self.run_tool(tool, *BOOK, *tables, *out)
                    told = "din.csv: --miss-cost is for a table of a sweep; "
                    self.refused(ran, 1, f"{tool}: {told}")

    def test_small_blocks(self):
        """One of 8 bytes takes half as long as one of 16: 1 + (80 + 1) * 50 / 100."""
        self.write("t.csv", "8,1,1,8,50,50,49\n")
        self.assertEqual(self.best("t.csv", *BOOK)[1][0]["AMAT"], "41.500")

    @needs("python3-matplotlib")
    def test_drawn(self):
        """By size with blocks of 64 bytes, and of several tables."""
        shown = self.shown("--only", "size", *BOOK, "t.csv", "a.svg")
        drawn = [(int(x), f"{y:.3f}") for x, y in shown.data["size_1"][0]]
        self.assertEqual(drawn, [(size, times[2]) for size, times in TIMES.items()])
        self.assertLessEqual({"access time in cycles (AMAT)",
                              "Access time by cache size: blocks of 64 bytes"}, shown.texts)
        shown = self.shown("--only", "pareto", "--measure", "traffic", "t.csv", "a.svg")
        self.assertIn("The smallest caches with the least traffic (block size, sets, ways)",
                      shown.texts)
        front = [(size, 16 * ratios[0]) for size, ratios in RATIOS.items()]
        self.assertEqual(shown.data["pareto_2"], [front])
        shown = self.shown(*BOOK, "t.csv", "t.csv", "a.svg")
        self.assertEqual([f"{y:.3f}" for _, y in shown.data["size_2"][0]],
                         [times[2] for times in TIMES.values()])
