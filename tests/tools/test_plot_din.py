"""Curves over all ways, other measures, pictures of tables of din, and of several tables."""

import itertools
import re

import base
from base import needs
from din_base import COLUMNS, POLICIES, din_rows
from lib import table
from test_plot import EIGHT, PlotTest, rows_of, ways_of

COUNTS = "l1-u-references,l1-u-misses,l1-u-percent,bypassed"
BY_SIZE = "Miss ratio by cache size"


@needs("python3-matplotlib")
class Curve(PlotTest):
    POINTS = [(64 * way, 10 - way / 10) for way in range(1, 41)]

    def curve(self, name, ways=40, blocks=(64,), sets=(1,)):
        """Writes a table of caches of which each way more misses ten times less."""
        self.write(name, "".join(
            f"{bsize},{count},{way},{bsize * count * way},{9000 + 10 * way},{1000 - 10 * way},0\n"
            for bsize in blocks for count in sets for way in range(1, ways + 1)
        ))

    def test_curves(self):
        """A line without marks over all ways, also in the first of three pictures; few ways have
        marks. A line for each block size or number of sets."""
        self.curve("t.csv")
        shown = self.shows("--curve t.csv", {"curve_1": [self.POINTS]}, [], [
            f"{BY_SIZE}: fully associative, blocks of 64 bytes"])
        self.assertEqual(shown.artists["curve_1"].get_marker(), "")
        whole = self.data("t.csv", "a.svg")
        self.assertEqual({name.split("_")[0] for name in whole}, {"curve", "pareto"})
        self.curve("few.csv", ways=6)
        shown = self.shows("--curve few.csv")
        self.assertEqual(shown.artists["curve_1"].get_marker(), "o")
        self.curve("blocks.csv", blocks=(16, 64))
        self.shows("--only curve blocks.csv", None, ["16 bytes", "64 bytes"],
                   [f"{BY_SIZE}: fully associative"])
        self.curve("sets.csv", blocks=(16, 64), sets=(1, 2, 4))
        shown = self.shows("--curve --bsize 16 sets.csv", None, ["1 set", "2 sets", "4 sets"])
        self.assertEqual(shown.data["curve_3"], [self.POINTS])
        self.assertNotIn("curve_1", self.data("sets.csv", "a.svg"))
        # of several numbers of sets one at the block size that is drawn
        self.write("odd.csv", ways_of((1, 2)) + rows_of([(1, 900), (2, 700)], 16))
        self.shows("--curve odd.csv", {"curve_1": [[(64, 0.1), (128, 0.1)]]}, texts=[
            f"{BY_SIZE}: fully associative, blocks of 64 bytes"])

    def test_long_curves_are_thinned(self):
        """No more points than can be seen; the ends stay, and each point is one of the table."""
        space = "--bsize 16 --sets 1 --assoc 1-65536 --size 0-1m -t".split()
        self.write("t.csv", self.sweep(*space, base.EXAMPLES / "sort.din"))
        points, = self.data("--curve", "t.csv", "a.svg")["curve_1"]
        rows = table.read_table(*table.lines_of(self.folder / "t.csv"))
        rows = {row.size: float(row.share) for row in rows}
        self.assertEqual((points[0][0], points[-1][0]), (16, 1 << 20))
        self.assertTrue(all(abs(rows[x] - y) < 1e-6 for x, y in points))
        self.assertTrue(100 < len(points) < 2000, len(points))
        drawn = {round(y, 3) for _, y in points}
        self.assertEqual({round(share, 3) for share in rows.values()} - drawn, set())


@needs("python3-matplotlib")
class Measure(PlotTest):
    def test_of_a_sweep(self):
        """25 and 10 misses of 100 references in 4 and 8 lines evict 21 and 2 times. A column that
        counts references is in per cent of them, any other in its own unit."""
        shown = self.shows("--measure evictions --only size --bsize 16 eight.csv", texts=[
            "Evictions by cache size: blocks of 16 bytes", "evictions in per cent of references"])
        self.assertEqual(shown.data["size_2"], [[(64, 21), (128, 2)]])
        rows = ("64,1,1,64,500,500,49,70,580\n64,2,1,128,600,400,38,6,302.5\n"
                "64,4,1,256,650,350,9,-11,200\n")
        self.write("t.csv", f"{table.HEADER},conflict,cost\n{rows}")
        shown = self.shows("--measure conflict --only size t.csv", {
            "size_1": [[(64, 7), (128, 0.6), (256, -1.1)]]})
        low, _ = shown.axes[0].get_ylim()  # a tick below the least
        self.assertTrue(low <= -1.1 and shown.ticks()[0][1] == low, shown.ticks())
        self.assertEqual((shown.ticks()[0][0], shown.axes[0].get_yscale()), (f"{low:g}", "linear"))
        shown = self.shows("--measure cost --only size t.csv", {
            "size_1": [[(64, 580), (128, 302.5), (256, 200)]]}, texts=["cost"])
        self.assertEqual(shown.ticks(), [(f"{at}", at) for at in range(0, 601, 100)])
        self.write("t.csv", f"{table.HEADER},cost\n64,1,1,64,50,50,49,{'9' * 64}\n")
        ticks = self.shows("--measure cost --only size t.csv").ticks()
        self.assertLessEqual({("2e63", 2e63), ("4e63", 4e63)}, {*ticks})


@needs("python3-matplotlib")
class Kinds(PlotTest):
    """Traffic in both directions, and misses by the kind of reference."""

    ROWS = {(16, 2, 1): (40, 10, 20, 10, 4), (16, 4, 1): (30, 10, 15, 5, 3),
            (32, 1, 1): (50, 25, 15, 10, 2), (32, 2, 1): (32, 0, 22, 10, 1)}

    def setUp(self):
        super().setUp()
        rows = base.rows_of(100, {cache: counts[0] for cache, counts in self.ROWS.items()})
        more = (",".join(map(str, counts[1:])) for counts in self.ROWS.values())
        self.write("t.csv", f"{table.HEADER},fetch-misses,read-misses,write-misses,copybacks\n"
                   + "".join(f"{row},{own}\n" for row, own in zip(rows.splitlines(), more)))

    def test_traffic(self):
        """(40 + 4) * 16 bytes and so on."""
        self.shows("--only traffic t.csv", {
            "traffic_1": [[(32, 704), (64, 528)]], "traffic_2": [[(32, 1664), (64, 1056)]]},
            ["16", "32"], ["Traffic with copy-backs by cache size: 1 way", "block size",
                           "traffic in bytes, with copy-backs"])
        lines = self.figures("--only", "traffic", "t.csv")[0]["traffic"]["1"]
        self.assertEqual([line["y"] for line in lines], [[704, 528], [1664, 1056]])

    def test_kinds(self):
        """Bars on each other: 25, 15 and 10 of 50 misses, and 0, 22 and 10 of 32."""
        for words, data in (("", {"kinds_1": (0, 0), "kinds_2": (0, 22), "kinds_3": (22, 10)}),
                            ("--bsize 16 ", {"kinds_1": (0, 10), "kinds_2": (10, 15),
                                             "kinds_3": (25, 5)})):
            shown = self.shows(f"{words}--only kinds t.csv", data, ["fetch", "read", "write"], [
                "misses in per cent of references"])
            self.assertEqual(shown.ticks("x"), [("32", 0), ("64", 1)])
        self.assertEqual(shown.axes[0].get_ylim()[0], 0)
        bars = self.figures("--only", "kinds", "t.csv")[0]["kinds"]
        self.assertEqual([bar["y"] for bar in bars["32"]], [[25, 0], [15, 22], [10, 10]])
        self.assertEqual([bars[bsize][0]["x"] for bsize in ("16", "32")], [[0, 1], [0, 1]])
        self.assertEqual(bars["16"][1]["hovertext"][1], "64 bytes<br>read misses 15 of 30<br>"
                         "misses in per cent of references: 15")
        drawn = self.good(self.plot("--only", "kinds", "t.csv", "-"))
        self.assertIn("Misses by cache size: blocks of 32 bytes, 1 way\n", drawn)

    def test_refused(self):
        for only in "traffic", "kinds":
            ran = self.plot("--only", only, "--measure", "hits", "t.csv", "a.svg")
            self.refused(ran, 1, f"plot: --only {only} draws ", "no other measure\n")


@needs("python3-matplotlib")
class Din(PlotTest):
    def setUp(self):
        super().setUp()
        self.write_din()

    def test_a_line_for_each_policy(self):
        self.shows("din.csv", {
            "size_1": [[(64, 10), (128, 2)]], "size_2": [[(64, 20), (128, 2.5)]],
            "size_3": [[(64, 15), (128, 3.5)]],
        }, ["LRU", "FIFO", "random"], [BY_SIZE, "cache size in bytes", "miss ratio in per cent"])
        bars = self.shown("--measure", "l1-u-misses", "din.csv", "a.svg").bars
        self.assertEqual(bars, [[(64, 120), (64, 180)], [(128, 30), (128, 42)]])
        shown = self.shows("--measure memory-writes din.csv",
                           texts=["Memory writes by cache size"])
        self.assertEqual(shown.data["size_1"], [[(64, 10), (128, 2)]])
        self.shows("--across l1-uassoc din.csv", None, [
            f"{size} bytes, {policy}" for size in (64, 128) for policy in ("LRU", "FIFO", "random")
        ], ["ways"])

    def test_bars_are_within_the_axes(self):
        """Also where the means are far from the least and the greatest of the seeds."""
        for misses, low, high in (((10, 800, 90), 1, 80), ((300, 600, 450), 30, 60)):
            self.write_din("t.csv", {(64, "r"): misses, (128, "r"): misses})
            shown = self.shown("t.csv", "a.svg")
            least, greatest = shown.axes[0].get_ylim()
            self.assertTrue(least <= low and high <= greatest, (least, greatest))
            self.assertEqual({y for bar in shown.bars for _, y in bar}, {low, high})

    def test_ticks_of_counts(self):
        """A tick's text is its value, in thousands or millions where it says so."""
        units = {"": 1, "k": 10 ** 3, "M": 10 ** 6, "G": 10 ** 9}
        for many, used in ((1, {"", "k"}), (10 ** 3, {"k", "M"}), (10 ** 6, {"M", "G"})):
            rows = "".join(f"{size},16,2,l,1,{100000 * many},{misses * many},1.000,0,0\n"
                           for size, misses in ((64, 60000), (128, 300)))
            self.write("t.csv", f"{COLUMNS}\n{rows}")
            ticks = self.shown("--measure", "l1-u-misses", "t.csv", "a.svg").ticks()
            ticks = [(*re.fullmatch("([0-9.]+)([kMG]?)", text).groups(), value)
                     for text, value in ticks]
            for number, unit, value in ticks:
                self.assertAlmostEqual(float(number) * units[unit] / value, 1)
            self.assertEqual({unit for _, unit, _ in ticks}, used)

    def test_many_lines(self):
        """Of more than seven lines those of 4 ways are drawn, or of the ways that are asked for."""
        fewer = {key: misses[:1] for key, misses in POLICIES.items()}
        self.write("t.csv", COLUMNS + "\n" + "".join(din_rows(fewer, ways) for ways in (1, 2, 8)))
        for words, ways in ("", 2), ("--ways 8", 8), ("--ways 2", 2):
            self.shows(f"{words} t.csv", None, ["LRU", "FIFO", "random"],
                       [f"{BY_SIZE}: {ways} ways"])
        for option, absent in (("--ways=4", "assoc 4; there are 1, 2, 8"),
                               ("--bsize=32", "bsize 32; there are 16")):
            self.refused(self.plot(option, "t.csv", "-"), 1, f"t.csv: no run has l1-u{absent}\n")

    def test_some_of_many_policies(self):
        """Of twelve combinations each second and the last are drawn, each under its own name, and
        the title says so; of six all."""
        words = ({"l": "LRU", "f": "FIFO", "r": "random"},
                 {"a": "write-allocate", "n": "no write-allocate"},
                 {"a": "write-back", "n": "write-through"})
        combinations = list(itertools.product("lfr", "an", "an"))
        rows = [f"{size},{','.join(given)},1000,{missed},{missed / 10},0\n"
                for size, less in ((64, 0), (128, 50))
                for given, missed in zip(combinations, range(100 - less, 120))]
        header = f"l1-usize,l1-urepl,l1-uwalloc,l1-uwback,{COUNTS}\n"
        names = [", ".join(text[value] for text, value in zip(words, given))
                 for given in combinations]
        wanted = {name: [(64, 10 + at / 10), (128, 5 + at / 10)] for at, name in enumerate(names)}
        drawn = [*names[::2], names[-1]]
        self.write("t.csv", header + "".join(rows))
        self.shows("t.csv", {f"size_{number}": [wanted[name]]
                             for number, name in enumerate(drawn, 1)}, drawn,
                   [f"{BY_SIZE}: 7 of 12 lines"])
        self.write("t.csv", header + "".join(row for row in rows if ",n,1000" not in row))
        self.assertEqual(len(self.shows("t.csv", texts=[BY_SIZE]).names), 6)

    def test_second_levels(self):
        """The miss ratio is that of the cache on the axis, and a line's name says whose it is. A
        column that is called global is no local one."""
        header = "l1-dsize,l2-usize,l2-urepl,l1-d-references,l1-d-misses,l1-d-percent,"
        header += "l2-u-references,l2-u-misses,l2-u-percent,bypassed"
        second = (256, "l", 10), (256, "f", 20), (512, "l", 5), (512, "f", 6)
        rows = "".join(f"64,{size},{policy},100,50,50.000,50,{miss},{2 * miss}.000,9\n"
                       for size, policy, miss in second)
        self.write("t.csv", f"{header}\n{rows}")
        self.shows("t.csv", {"size_1": [[(256, 20), (512, 10)]], "size_2": [[(256, 40), (512, 12)]]
                             }, None, ["Local miss ratio of l2-u by cache size",
                                       "local miss ratio of l2-u in per cent"])
        more = rows + rows.replace("64,", "32,").replace(",50,50.000,50,", ",60,60.000,60,")
        self.write("t.csv", f"{header}\n{more}")
        self.shows("t.csv", None, [
            f"l1-d {size} bytes, l2-u {policy}" for size in (64, 32) for policy in ("LRU", "FIFO")])
        # what the first level counts does not depend on the second
        self.shows("--across l1-dsize t.csv", {"size_1": [[(32, 60), (64, 50)]]}, [],
                   ["Miss ratio of l1-d by cache size"])
        # all caches together: 32 + 256 bytes are the least
        data = self.data("--only", "pareto", "--measure", "l2-u-misses", "t.csv", "a.svg")
        self.assertEqual(data["pareto_2"], [[(288, 10), (544, 5)]])
        every = [(first + size, missed) for first in (32, 64) for size, _, missed in second]
        self.assertEqual(sorted(data["pareto_1"][0]), sorted(every))
        header = "l1-dsize,l2-usize,l1-d-references,l2-u-misses,l2-u-global-percent,bypassed"
        self.write("t.csv", f"{header}\n64,256,100,10,10.000,0\n64,512,100,5,5.000,0\n")
        self.shows("--measure l2-u-global-percent t.csv", {"size_1": [[(256, 10), (512, 5)]]},
                   texts=["Global miss ratio of l2-u by cache size",
                          "global miss ratio of l2-u in per cent"])
        self.write("t.csv", "l2-usize,l2-u-references,l2-u-misses,l2-u-percent,bypassed\n"
                   "64,100,10,10.000,0\n")
        self.shows("t.csv", texts=[BY_SIZE])


@needs("python3-matplotlib")
class Several(PlotTest):
    def setUp(self):
        """Beside the table of 100 references one of 1,000 with two ways alone."""
        super().setUp()
        other = {(16, 2, 2): 200, (16, 4, 2): 90, (32, 1, 2): 300, (32, 2, 2): 70}
        self.write("other.csv", base.rows_of(1000, other))
        self.write_din()

    def test_a_line_for_each(self):
        """At the block size nearest to 64 and the ways nearest to 4, or those asked for, of those
        that they have in common. Options may stand anywhere."""
        near = {"size_1": [[(64, 28), (128, 8)]], "size_2": [[(64, 30), (128, 7)]]}
        texts = [f"{BY_SIZE}: blocks of 32 bytes, 2 ways"]
        for words in ("eight.csv other.csv", "-- eight.csv other.csv"):
            self.shows(words, near, ["eight", "other"], texts)
        self.shows("eight.csv --bsize=16 other.csv --ways 2",
                   {"size_1": [[(64, 25), (128, 10)]], "size_2": [[(64, 20), (128, 9)]]})
        self.write("third.csv", base.rows_of(100, {(16, 8, 2): 19, (64, 8, 2): 17}))
        self.shows("eight.csv third.csv",
                   {"size_1": [[(64, 25), (128, 10)]], "size_2": [[(256, 19)]]})

    def test_names(self):
        """The whole path where two files have one name; a long one is cut."""
        (self.folder / "more").mkdir()
        self.write("more/eight.csv", EIGHT)
        self.shows("eight.csv more/eight.csv", None, ["eight.csv", "more/eight.csv"])
        self.write("a" * 30 + "\n.csv", EIGHT)
        self.assertEqual(self.shown("a" * 30 + "\n.csv", "eight.csv", "a.svg").names,
                         ["a" * 23 + "…", "eight"])
        drawn = self.good(self.plot("eight.csv", "-", "-", stdin=EIGHT.encode()))
        self.assertIn("###B### standard input\n", drawn)

    def test_curve_and_front(self):
        for name, most in ("one", 500), ("two", 400):
            self.write(f"{name}.csv", ways_of((1, 2, 4), lambda way, most=most: most // way))
        self.shows("one.csv two.csv", {"curve_1": [[(64, 50), (128, 25), (256, 12.5)]],
                                       "curve_2": [[(64, 40), (128, 20), (256, 10)]]},
                   texts=[f"{BY_SIZE}: fully associative, blocks of 64 bytes"])
        shown = self.shows("--only pareto eight.csv other.csv", {
            "pareto_1": [[(32, 40), (64, 25), (128, 8)]], "pareto_2": [[(64, 20), (128, 7)]]},
            ["eight", "other"])
        for artist in shown.artists.values():
            self.assertEqual(artist.get_drawstyle(), "steps-post")

    def test_tables_of_din(self):
        self.write_din("lru.csv", {(64, "l"): (300,), (128, "l"): (250,)})
        names = ["din, LRU", "din, FIFO", "din, random", "lru"]
        shown = self.shows("din.csv lru.csv", None, names, [BY_SIZE])
        self.assertEqual(shown.data["size_4"], [[(64, 30), (128, 25)]])
        self.write_din("last.csv", {(64, "f"): (300,)})
        self.shows("din.csv din.csv lru.csv last.csv", texts=[f"{BY_SIZE}: 5 of 8 lines"])
        self.assertEqual(len(self.shows("lru.csv " * 7).names), 7)


@needs("python3-matplotlib")
class Split(PlotTest):
    """A split table beside a unified one, and both in one: what one lacks is empty."""

    UNIFIED = (f"l1-usize,l1-ubsize,{COUNTS},memory-reads", "64,16,100,50,50.000,0,50",
               "128,16,100,20,20.000,0,20")
    SPLIT = ("l1-isize,l1-dsize,l1-i-references,l1-i-misses,l1-i-percent,l1-d-references,"
             "l1-d-misses,l1-d-percent,bypassed,memory-reads",
             "64,64,60,6,10.000,40,20,50.000,0,26", "64,128,60,6,10.000,40,10,25.000,0,16")

    def setUp(self):
        super().setUp()
        for name, lines in ("one.csv", self.UNIFIED), ("two.csv", self.SPLIT):
            self.write(name, "".join(f"{line}\n" for line in lines))
        columns = [*dict.fromkeys(",".join((self.UNIFIED[0], self.SPLIT[0])).split(","))]
        rows = [dict(zip(lines[0].split(","), line.split(",")))
                for lines in (self.UNIFIED, self.SPLIT) for line in lines[1:]]
        lines = [columns, *([row.get(column, "") for column in columns] for row in rows)]
        self.write("both.csv", "".join(f"{','.join(line)}\n" for line in lines))

    def test_two_tables(self):
        """Each by its own caches, or by a measure that both have."""
        self.shows("one.csv two.csv", {"size_1": [[(64, 50), (128, 20)]],
                                       "size_2": [[(64, 50), (128, 25)]]},
                   ["one (l1-u)", "two (l1-d)"], [BY_SIZE])
        self.shows("--measure memory-reads one.csv two.csv", {
            "size_1": [[(64, 50), (128, 20)]], "size_2": [[(64, 26), (128, 16)]]}, ["one", "two"])

    def test_one_table(self):
        ran = self.run_tool("best", "both.csv", "--measure", "memory-reads", "--rows", "3")
        wanted = ("l1-usize,l1-ubsize,l1-isize,l1-dsize,size,memory-reads\n,,64,128,192,16\n"
                  "128,16,,,128,20\n,,64,64,128,26\n")
        self.assertEqual(self.good(ran), wanted)
        ran = self.run_tool("best", "both.csv", "--rows", "3")
        told = "best: both.csv: 2 of 4 rows have no l1-d-misses, and are left out\n"
        wanted = ("l1-usize,l1-ubsize,l1-isize,l1-dsize,size,l1-d-misses\n,,64,128,192,10\n"
                  ",,64,64,128,20\n")
        self.ends(ran, 0, told, wanted)
        ran = self.plot("both.csv", "-")
        self.assertIn("Miss ratio of l1-d by cache size", ran.stdout.decode())
        told = told.replace("best:", "plot:").replace("misses", "percent")
        self.assertEqual(ran.stderr.decode(), told)

    def test_refused(self):
        """A row in which a cache is there in part, or none is; two that have nothing in common."""
        for line in "64,,100,50,50.000,0,50", ",16,100,50,50.000,0,50":
            self.write("t.csv", f"{self.UNIFIED[0].replace('usize', 'usets')}\n{line}\n")
            ran = self.run_tool("best", "t.csv")
            self.refused(ran, 1, "t.csv: line 2: no row of a table of din")
        self.write("other.csv", "l1-dsize,l1-d-references,l1-d-misses,bypassed\n64,40,20,60\n")
        ran = self.plot("one.csv", "other.csv", "-")
        self.refused(ran, 1, "plot: the tables have no measure in common: name one by --measure")
