"""The stacked picture of the three C's."""

import re

import base
from base import needs
from lib import table
from test_plot_looks import LooksTest

HEAD = f"{table.HEADER},compulsory,capacity,conflict\n"
# of 1,000 references: misses of 1 and of 2 ways; at 128 bytes 1 way misses less than one set
ROWS = ("64,1,2,128,400,600,598,50,550,0\n", "64,2,1,128,450,550,548,50,550,-50\n",
        "64,2,2,256,700,300,296,50,150,100\n", "64,4,1,256,620,380,376,50,150,180\n",
        "64,1,3,192,700,300,297,50,250,0\n")


@needs("python3-matplotlib")
class Drawn(LooksTest):
    def setUp(self):
        super().setUp()
        self.write("t.csv", HEAD + "".join(ROWS))

    def test_data(self):
        """From the top 1 way, 2 ways, capacity above compulsory, and compulsory misses; in greys
        each darker than the one above it."""
        title = "The three C's by cache size: conflict misses of 1 to 2 ways, blocks of 64 bytes"
        shown = self.shows("--only three-c t.csv", {
            "three-c_1": [[(128, 55), (256, 38)]], "three-c_2": [[(128, 60), (256, 30)]],
            "three-c_3": [[(128, 60), (256, 20)]], "three-c_4": [[(128, 5), (256, 5)]]},
            ["1 way", "2 ways", "capacity", "compulsory"], [title])
        areas = list(shown.axes[0].collections)  # in the order in which they are drawn
        self.assertEqual([area.get_gid() for area in areas], list(shown.data))
        edges = [[tuple(place) for place in edge.get_xydata()] for edge in shown.axes[0].lines]
        self.assertEqual(edges, [run for run, in shown.data.values()])
        self.assertGreater(min(edge.get_zorder() for edge in shown.axes[0].lines),
                           max(area.get_zorder() for area in areas))
        self.assertEqual(shown.axes[0].get_yscale(), "linear")
        self.assertEqual(shown.axes[0].get_ylim(), (0, 63))
        self.assertEqual(len({tuple(area.get_facecolor()[0]) for area in areas}), 4)

        shown = self.shown("--only", "three-c", "--mono", "t.csv", "a.svg")
        greys = [tuple(area.get_facecolor()[0][:3]) for area in shown.axes[0].collections]
        self.assertTrue(all(len(set(grey)) == 1 for grey in greys), greys)
        self.assertEqual((len(greys), greys), (4, sorted(greys, reverse=True)))

    def test_ways_of_a_single_size(self):
        """They have no area, so a mark shows their misses."""
        self.write("t.csv", HEAD + "".join(ROWS) + "64,1,4,256,800,200,196,50,150,0\n")
        shown = self.shown("--only", "three-c", "t.csv", "a.svg")
        self.assertEqual(shown.data["three-c_3"], [[(256, 20)]])
        marks = [edge.get_marker() for edge in shown.axes[0].lines]
        self.assertEqual(marks, ["", "", "o", "", ""])

    def test_many_ways(self):
        """At most five of them, in even steps of their powers of two."""
        rows = "".join(f"16,{sets},{ways},{16 * sets * ways},{1000 - 9 * ways},{9 * ways},1,5,4,"
                       f"{9 * ways - 9}\n" for sets in (1, 2) for ways in range(1, 65))
        self.write("t.csv", HEAD + rows)
        self.shows("--only three-c t.csv", None, [
            "1 way", "4 ways", "16 ways", "64 ways", "capacity", "compulsory"])

    def test_block_sizes(self):
        other = "".join(re.sub("^64,(.),(.),(...)", lambda found: f"16,{found[1]},{found[2]},"
                               f"{16 * int(found[1]) * int(found[2])}", row) for row in ROWS)
        self.write("t.csv", HEAD + "".join(ROWS) + other)
        shown = self.shown("--only", "three-c", "t.csv", "a.svg")
        self.assertTrue(any("blocks of 64 bytes" in text for text in shown.texts))
        shown = self.shown("--only", "three-c", "--bsize", "16", "t.csv", "a.svg")
        self.assertEqual(shown.data["three-c_1"], [[(32, 55), (64, 38)]])

    def test_a_real_table(self):
        """Each format, and as text lines with letters."""
        words = "--bsize 16-32 --sets 1-64 --assoc 1-4 --size 64-1k".split()
        text = self.good(self.run_tool("three-c", base.EXAMPLES / "sort.din", *words))
        self.write("t.csv", text)
        for out in ("a.png", "a.svg", "a.pdf"):
            for more in ([], ["--mono", "--size", "3.3in"]):
                self.assertEqual(self.good(self.plot("--only", "three-c", *more, "t.csv", out)), "")
        drawn = self.good(self.plot("--only", "three-c", "t.csv", "-"))
        for name in ("***A*** 1 way", "$$$C$$$ 4 ways", "capacity", "compulsory"):
            self.assertIn(name, drawn)


@needs("python3-plotly", "chromium")
class Page(LooksTest):
    def test_page(self):
        """The areas lie on each other from the top, and a point tells what it is."""
        self.write("t.csv", HEAD + "".join(ROWS))
        for width, dark in (400, True), (1280, False):
            look = self.look("--only", "three-c", "t.csv", width=width, dark=dark)
            self.assertEqual(look["found"], [])
            self.assertLessEqual(look["wide"], look["width"])
        data = self.figures("--only", "three-c", "t.csv")[0]["three-c"]["64"]
        self.assertEqual([area["name"] for area in data],
                         ["1 way", "2 ways", "capacity", "compulsory"])
        self.assertEqual([area["y"] for area in data], [[55, 38], [60, 30], [60, 20], [5, 5]])
        self.assertEqual({area["fill"] for area in data}, {"tozeroy"})
        self.assertEqual(len({area["fillcolor"] for area in data}), 4)
        texts = [area["hovertext"][1] for area in data]
        told = (("1 way: misses 380, of these conflict 180", 38),
                ("2 ways: misses 300, of these conflict 100", 30),
                ("fully associative: misses 200, of these capacity 150", 20),
                ("compulsory misses 50", 5))
        self.assertEqual(texts, [f"256 bytes<br>{text}<br>miss ratio in per cent: {share}"
                                 for text, share in told])
