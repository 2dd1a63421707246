"""Reading a table: in Python, and by best and plot, also the columns that tools add to one."""

import fractions

from base import ToolTest, needs
from lib import table
from test_plot import PlotTest

LINE, ROW = "16,1,2,32,4,5,3", table.Row(16, 1, 2, 32, 4, 5, 3)
NO_ROW = "no row of a sweep's table"
# of three-c: the second cache misses less often than a fully associative one, the last has too many
# lines
HEAD = f"{table.HEADER},compulsory,capacity,conflict\n"
ROWS = ("16,1,2,32,60,40,38,10,30,0\n", "16,2,1,32,65,35,33,10,30,-5\n",
        "16,4,1,64,70,30,26,10,,\n")
DIN = ("l1-usize,l1-ubsize,l1-u-references,l1-u-misses,bypassed\n", "64,16,100,40,0\n",
       "128,16,100,30,0\n")


class Reading(ToolTest):
    def test_rows(self):
        """Also of a page without a header, with lines that end in CR LF, with a byte order mark as
        spreadsheets write one, and with further columns."""
        for text in (f"{table.HEADER}\n{LINE}\n", f"{LINE}\n", f"{table.HEADER}\r\n{LINE}\r\n",
                     f"\ufeff{table.HEADER}\n{LINE}\n",
                     f"{table.HEADER},percent,note\n{LINE},55.556,\n"):
            self.write("t.csv", text)
            row, = table.read_table(*table.lines_of(self.folder / "t.csv"))
            self.assertEqual(row, ROW)
        told = row.references, row.share, row.cache
        self.assertEqual(told, (9, fractions.Fraction(500, 9), (16, 1, 2)))
        self.assertEqual(len(table.read_table([f"{LINE}\n", "16,2,1,32,4,5,3\n"], "t")), 2)

    def test_what_is_no_table(self):
        for text, fault in (
            ("0 10\n", f"t: line 1: {NO_ROW}"),
            ("16,1,2,32,4,5\n", f"t: line 1: {NO_ROW}"),
            (f"{table.HEADER}\n16,1,2,33,4,5,3\n", "t: line 2: size is not bsize * sets * assoc"),
            (f"{table.HEADER}\n16,1,2,32,4,5,-3\n", f"t: line 2: {NO_ROW}"),
            (f"{table.HEADER}\n16,1,2,32,4,5,3,55.556\n", f"t: line 2: {NO_ROW}"),
            (f"{table.HEADER},percent\n16,1,2,32,4,5,3\n", f"t: line 2: {NO_ROW}"),
            (f"{table.HEADER}\n", "t: a table without a row"),
            ("", "t: a table without a row"),
        ):
            with self.assertRaises(table.BadTable) as raised:
                table.read_table(text.splitlines(keepends=True), "t")
            self.assertEqual(str(raised.exception), fault)


class Pareto(ToolTest):
    def test_front(self):
        # 64 bytes miss 9 times at best. Of the two caches of 128 bytes that miss 7 times the
        # direct-mapped one stays. 256 bytes do no better than 128. Of the three caches of 512 bytes
        # that miss 5 times that of one way with the smaller blocks stays; of those of 1,024 bytes
        # the one of one way, though its blocks are larger.
        shapes = {(16, 1, 4): 9, (16, 2, 2): 10, (16, 4, 2): 7, (16, 8, 1): 7, (16, 16, 1): 8,
                  (32, 4, 2): 7, (64, 8, 1): 5, (32, 16, 1): 5, (32, 8, 2): 5, (32, 16, 2): 4,
                  (64, 16, 1): 4}
        rows = [table.Row(bsize, sets, assoc, bsize * sets * assoc, 10 - misses, misses, 0)
                for (bsize, sets, assoc), misses in shapes.items()]
        front = [(16, 1, 4), (16, 8, 1), (32, 16, 1), (64, 16, 1)]
        self.assertEqual([row.cache for row in table.pareto(rows)], front)
        self.assertEqual([row.cache for row in table.pareto(rows[::-1])], front)
        self.assertEqual(table.pareto([ROW]), [ROW])


class Columns(PlotTest):
    """Below 0, empty, cut, twice."""

    def best(self, text, *words):
        self.write("t.csv", text)
        return self.run_tool("best", "t.csv", *words)

    def each(self, *words):
        """What best and plot make of the table."""
        for tool, *out in ("best",), ("plot", "-"):
            yield tool, self.run_tool(tool, *words, "t.csv", *out)

    def test_best_below_0(self):
        """The least is -5; with half of 5 more than it, 0 is too many, with all of 5 it is not."""
        lesser, other = "16,2,1,32,65,35,33,-5,-5.000", "16,1,2,32,60,40,38,0,0.000"
        for words, *wanted in (
            ("", lesser), ("--within 50", lesser), ("--within 99", lesser),
            ("--within 100", lesser, other), ("--below 0", lesser, other),
            ("--rows 2", lesser, other),
        ):
            ran = self.best(HEAD + "".join(ROWS[:2]), "--measure", "conflict", *words.split())
            self.assertEqual(self.good(ran).splitlines()[1:], wanted, words)

    def test_empty(self):
        """Such a cache is left out, which is told; where all are, that is a fault."""
        for column, wanted in ("capacity", 30), ("conflict", -5):
            said = f": t.csv: 1 of 3 caches have no {column}, and are left out\n"
            ran = self.best(HEAD + "".join(ROWS), "--measure", column)
            self.assertIn(f",{wanted},{wanted}.000\n", ran.stdout.decode())
            for tool, ran in self.each("--measure", column):
                self.assertEqual((ran.returncode, ran.stderr.decode()), (0, tool + said))
        self.write("t.csv", HEAD + ROWS[2])
        for tool, ran in self.each("--measure", "capacity"):
            self.refused(ran, 1, f"{tool}: t.csv: a table without any capacity\n")
        ran = self.best(f"{table.HEADER},cost\n16,1,2,32,60,40,38,\n", "--measure", "cost")
        self.refused(ran, 1, "line 2: cost is no number\n")

    def test_twice(self):
        for rows in ([*ROWS, ROWS[0]], [ROWS[0], ROWS[0]], [ROWS[1], ROWS[0], ROWS[1]]):
            self.write("t.csv", HEAD + "".join(rows))
            cache = ",".join(rows[-1].split(",")[:3])
            for tool, ran in self.each():
                self.refused(ran, 1, f"{tool}: t.csv: two rows for the cache {cache}\n")

    def test_cut(self):
        """Behind each letter of the last row."""
        for head, rows in (HEAD, ROWS[:2]), (DIN[0], DIN[1:]):
            for end in range(1, len(rows[-1])):
                ran = self.best((head + "".join(rows))[:-end])
                self.refused(ran, 1, "best: t.csv: line 3")
            for tool, ran in self.each():
                self.refused(ran, 1, f"{tool}: t.csv: line 3")

    @needs("python3-matplotlib")
    def test_plot_below_0(self):
        """The axis goes below 0, with a tick at or below the least value, and the points there."""
        for least, low, lowest in (-5, -5.25, "-5"), (-13, -14, "-14"):
            self.write("t.csv", HEAD + ROWS[0] + ROWS[1].replace("-5", f"{least}"))
            words = "--only", "pareto", "--measure", "conflict", "t.csv"
            shown = self.shown(*words, "t.svg")
            self.assertEqual((shown.axes[0].get_yscale(), shown.axes[0].get_ylim()),
                             ("linear", (low, 0)))
            self.assertEqual([shown.ticks()[at] for at in (0, -1)],
                             [(lowest, float(lowest)), ("0", 0)])
            self.assertEqual({*shown.data["pareto_1"][0]}, {(32, least), (32, 0)})
        drawn = self.good(self.run_tool("plot", *words, "-"))
        self.assertRegex(drawn, r"(?m)^ *-14 [|+]")

    @needs("python3-matplotlib")
    def test_the_lowest_tick(self):
        """On a logarithmic axis there are some below the least value."""
        rows = "".join(f"16,{sets},1,{16 * sets},{10000 - misses},{misses},9\n"
                       for sets, misses in ((1, 5000), (2, 900), (4, 103)))
        self.write("t.csv", f"{table.HEADER}\n{rows}")
        shown = self.shown("--only", "size", "t.csv", "t.svg")
        self.assertEqual(shown.axes[0].get_yscale(), "log")
        self.assertEqual(shown.ticks()[0], ("0.7", 0.7))
