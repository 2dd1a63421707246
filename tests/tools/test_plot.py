"""Pictures of a table: what is drawn by matplotlib, and what is refused."""

import contextlib
import gc
import importlib.machinery
import importlib.util
import io
import itertools
import json
import math
import os
import re
import signal
import subprocess
import sys

import base
from base import needs
from din_base import COLUMNS, POLICIES, din_rows
from lib import table

# Eight caches and 100 references, so that misses are per cent. 32 and 2 are the block size and the
# ways nearest to 64 and 4.
EIGHT = base.rows_of(100, {
    (16, 2, 1): 40, (16, 2, 2): 25, (16, 4, 1): 30, (16, 4, 2): 10,
    (32, 1, 1): 50, (32, 1, 2): 28, (32, 2, 1): 32, (32, 2, 2): 8,
})
ALL = [(32, 40), (64, 25), (64, 30), (128, 10), (32, 50), (64, 28), (64, 32), (128, 8)]
TITLES = (
    "Miss ratio by cache size: blocks of 32 bytes",
    "Miss ratio by block size: 2 ways",
    "The smallest caches that miss least",
)
AXES = {"miss ratio in per cent", "cache size in bytes", "block size in bytes"}


def rows_of(pairs, bsize=64):
    """A table of direct-mapped caches, given their sets and misses of 1,000 references."""
    return "".join(f"{bsize},{sets},1,{bsize * sets},{1000 - misses},{misses},0\n"
                   for sets, misses in pairs)


class Shown:
    """What is drawn on a figure of matplotlib."""

    def __init__(self, figure):
        self.figure, self.axes = figure, figure.get_axes()
        self.artists = {artist.get_gid(): artist for artist in figure.findobj()
                        if artist.get_gid()}

    @property
    def data(self):
        """By name the places of lines and areas, in runs of what is connected."""
        return {name: runs_of(artist) for name, artist in self.artists.items()}

    @property
    def names(self):
        """Those in the legends."""
        legends = [axes.get_legend() for axes in self.axes]
        return [text.get_text() for legend in legends if legend for text in legend.get_texts()]

    @property
    def texts(self):
        """All texts, those of several lines in one."""
        found = {artist.get_text().replace("\n", " ") for artist in self.figure.findobj(
            lambda artist: hasattr(artist, "get_text"))}
        return found | {text.partition(" (")[0] for text in found}

    @property
    def labels(self):
        return [text for axes in self.axes for text in axes.texts]

    def ticks(self, letter="y", at=0):
        """The texts and places of an axis' ticks."""
        axis = getattr(self.axes[at], f"{letter}axis")
        return [(text.get_text(), place)
                for text, place in zip(axis.get_ticklabels(), axis.get_ticklocs())]

    @property
    def bars(self):
        """Those from the least to the greatest of several seeds."""
        return [[tuple(end) for end in bar] for axes in self.axes for several in axes.collections
                if hasattr(several, "get_segments") for bar in several.get_segments()]


def runs_of(artist):
    if hasattr(artist, "get_height"):  # a bar on its foot
        return artist.get_y(), artist.get_height()
    if not hasattr(artist, "get_xydata"):  # the upper edge of an area
        path = artist.get_paths()[0].vertices
        return [list(dict.fromkeys((float(x), float(y)) for x, y in path if y))]
    runs = [[]]
    for x, y in artist.get_xydata():
        if math.isnan(x):
            runs.append([])
        else:
            runs[-1].append((float(x), float(y)))
    return runs


def plot_module():
    """The tool as a module."""
    loader = importlib.machinery.SourceFileLoader("plot", str(base.TOOLS / "plot"))
    module = importlib.util.module_from_spec(importlib.util.spec_from_loader("plot", loader))
    loader.exec_module(module)
    return module


def ways_of(ways, misses=lambda way: 1):
    """The same of fully associative caches, given their ways and what misses with so many."""
    return "".join(f"64,1,{way},{64 * way},{1000 - misses(way)},{misses(way)},0\n" for way in ways)


class PlotTest(base.ToolTest):
    def setUp(self):
        super().setUp()
        self.write("eight.csv", f"{table.HEADER}\n{EIGHT}")

    def plot(self, *arguments, **given):
        return self.run_tool("plot", *arguments, **given)

    def shown(self, *arguments):
        """What is drawn, by matplotlib in this process."""
        told = io.StringIO()
        with contextlib.chdir(self.folder), contextlib.redirect_stderr(told):
            try:
                asked = plot_module().arguments([*map(str, arguments)])
                from lib.plot import draw, figure
                return Shown(figure.figure_of(draw.drawn_of(asked), asked))
            except SystemExit:
                self.fail(told.getvalue())
            finally:
                gc.enable()

    def data(self, *arguments):
        return self.shown(*arguments).data

    def shows(self, words, data=None, names=None, texts=()):
        """A figure that must have these data, names in its legend, and texts."""
        shown = self.shown(*words.split(), "a.svg")
        self.assertEqual(shown.data, shown.data if data is None else data)
        self.assertEqual(shown.names, shown.names if names is None else names)
        for text in texts:
            self.assertIn(text, shown.texts)
        return shown

    def figures(self, *arguments):
        """The lines of the pictures of a page, by the picture's name and by what is chosen; and of
        each picture the layout."""
        self.assertEqual(self.good(self.plot(*arguments, "a page.html")), "")
        page = (self.folder / "a page.html").read_text()
        found, layouts, decoder = {}, {}, json.JSONDecoder()
        for made in re.finditer(r'Plotly\.newPlot\(\s*"([a-z-]+)",\s*', page):
            traces, end = decoder.raw_decode(page, made.end())
            end = re.compile(r",\s*").match(page, end).end()
            layouts[made[1]], _ = decoder.raw_decode(page, end)
            for trace in traces:
                found.setdefault(made[1], {}).setdefault(str(trace["meta"]), []).append(trace)
        return found, layouts

    def write_din(self, name="din.csv", policies=POLICIES):
        """Writes a table of din, given the misses of 1,000 references."""
        self.write(name, f"{COLUMNS}\n{din_rows(policies)}")

    def browsed(self, file, *options, place=""):
        """What chromium shows of a file."""
        flags = "--headless=new --no-sandbox --disable-gpu --virtual-time-budget=20000 --dump-dom"
        words = [*flags.split(), *options, f"--user-data-dir={self.folder}/profile"]
        ran = self.run_command("chromium", *words, (self.folder / file).as_uri() + place)
        self.assertEqual(ran.returncode, 0)
        return ran.stdout.decode()

    def names(self):
        return sorted(path.name for path in self.folder.iterdir())


@needs("python3-matplotlib")
class Drawn(PlotTest):
    def test_data(self):
        shown = self.shown("eight.csv", "eight.svg")
        data = shown.data
        every, labelled = data.pop("pareto_1")[0], data.pop("pareto_labelled")[0]
        front = [(32, 40), (64, 25), (128, 8)]
        self.assertEqual(data, {
            "size_1": [[(32, 50), (64, 32)]],
            "size_2": [[(64, 28), (128, 8)]],
            "block_1": [[(16, 25), (32, 28)]],
            "block_2": [[(16, 10), (32, 8)]],
            "pareto_2": [front],
            "pareto_3": [[(128, 8), (128, 8)]],
        })
        self.assertEqual(sorted(every), sorted(ALL))
        self.assertEqual(labelled[0], (128, 8))
        self.assertEqual([(text.get_text(), text.xy) for text in shown.labels][0],
                         ("32,2,2", (128, 8)))
        self.assertLessEqual({*TITLES, *AXES, "1 way", "2 ways", "64", "128", "cache size",
                              "all caches", "fewest misses up to this size"}, shown.texts)

    def test_what_is_fixed(self):
        data = self.data("--bsize", "16", "--ways=1", "eight.csv", "a.svg")
        self.assertEqual({name: runs for name, runs in data.items() if "pareto" not in name}, {
            "size_1": [[(32, 40), (64, 30)]], "size_2": [[(64, 25), (128, 10)]],
            "block_1": [[(16, 40), (32, 50)]], "block_2": [[(16, 30), (32, 32)]],
        })
        for name, title in zip(("size", "block", "pareto"), TITLES):
            shown = self.shown("--only", name, "eight.csv", "a.svg")
            self.assertEqual({given.split("_")[0] for given in shown.data}, {name})
            self.assertEqual([given for given in TITLES if given in shown.texts], [title])

    def test_the_nearest_by_ratio(self):
        """128 is twice 64, and 16 a quarter of it; 6 is once and a half 4, and 2 a half."""
        shapes = itertools.product((16, 128), (1, 2), (2, 6))
        rows = (f"{','.join(map(str, shape))},{math.prod(shape)},9,1,0\n" for shape in shapes)
        self.write("t.csv", "".join(rows))
        self.shows("t.csv", texts=["Miss ratio by cache size: blocks of 128 bytes",
                                   "Miss ratio by block size: 6 ways"])

    def test_a_line_is_cut_where_a_size_is_missing(self):
        # no direct-mapped cache has 4 sets, but one of two ways has; none at all has 32
        two = "64,4,2,512,500,500,0\n"
        self.write("t.csv", rows_of([(2, 900), (8, 700), (16, 600), (64, 500)]) + two)
        cut = [[(128, 90)], [(512, 70), (1024, 60), (4096, 50)]]
        self.assertEqual(self.data("--only", "size", "t.csv", "a.svg")["size_1"], cut)
        rows = rows_of([(8, 900)], 16) + rows_of([(2, 700)], 64) + rows_of([(1, 600)], 32)
        self.write("t.csv", rows)
        data = self.data("--only", "block", "t.csv", "a.svg")
        self.assertEqual(data["block_1"], [[(16, 90)], [(64, 70)]])

    def test_labels_are_apart(self):
        """Of forty points in a row, each better than the one before, some have a label. None is
        outside or touches another."""
        self.write("t.csv", ways_of(range(1, 41), lambda way: 1025 - 25 * way))
        for words in [], ["--size", "3.3in"], ["--scale", "2"]:
            shown = self.shown("--only", "pareto", *words, "t.csv", "a.png")
            self.assertTrue(3 < len(shown.labels) < 20)
            boxes, inside = [text.get_window_extent() for text in shown.labels], shown.axes[0].bbox
            for one, other in itertools.combinations(boxes, 2):
                self.assertFalse(one.overlaps(other), words)
            self.assertTrue(all(inside.x0 < box.x0 and inside.y0 < box.y0 and box.x1 < inside.x1
                                for box in boxes))

    def test_a_few_of_many_lines(self):
        for ways, chosen in (
            (range(1, 8), [1, 2, 3, 4, 5, 6, 7]),
            (range(1, 65), [1, 2, 4, 8, 16, 32, 64]),
            (range(1, 513), [1, 4, 16, 64, 256, 512]),
            (range(9, 29), [9, 12, 15, 18, 21, 24, 28]),
        ):
            self.write("t.csv", ways_of(ways))
            names = self.shown("--only", "size", "t.csv", "a.svg").names
            self.assertEqual([int(name.split()[0]) for name in names], chosen)

    def test_axis(self):
        """Logarithmic where the greatest is five times the least, with a place for 0, and with
        ticks that do not touch, in a picture and in few lines of text."""
        tens, tenths = "0 10 20 30 40 50", " ".join(f"{at / 10:.1g}" for at in range(1, 10))
        for *misses, is_log, low, high, wanted, few in (
            (100, 499, 0, 0, 52.395, "0 5 10 15 20 25 30 35 40 45 50", tens),
            (100, 500, 1, 8.24373, 54.1899, "10 20 30 50", "10 20 30 50"),
            (1000, 1000, 0, 0, 105, f"{tens} 60 70 80 90 100", "0 20 40 60 80 100"),
            (0, 0, 0, 0, 1, f"0 {tenths} 1", "0 0.2 0.4 0.6 0.8 1"),
            (1, 1000, 1, 0.0436516, 141.254, "0.05 0.1 0.2 0.5 1 2 5 10 20 50 100",
             "0.1 0.3 1 3 10 30 100"),
            (0, 10, 900, 1, 0.339611, 112.708, "0.582762 1 2 3 5 7 10 20 30 50 70 100",
             "0.582762 2 5 10 20 50 100"),
            (0, 300, 900, 0, 0, 94.5, f"{tens} 60 70 80 90", "0 20 40 60 80"),
        ):
            self.write("t.csv", rows_of(enumerate(misses, 1)))
            shown = self.shown("--only", "size", "t.csv", "a.png")
            self.assertEqual(shown.axes[0].get_yscale(), "log" if is_log else "linear")
            ends = [f"{end:.6g}" for end in shown.axes[0].get_ylim()]
            self.assertEqual(ends, [f"{low}", f"{high}"])
            ticks = shown.ticks()
            self.assertEqual(" ".join(f"{at:.6g}" for _, at in ticks), wanted)
            foot = ticks[0][1] if is_log and 0 in misses else 0
            self.assertEqual([float(text) for text, _ in ticks],
                             [float(f"{at * (at != foot):.6g}") for _, at in ticks])
            places = [place for _, place in shown.data["size_1"][0]]
            self.assertEqual(places, [miss / 10 or foot for miss in misses])
            drawn = self.good(self.plot("--only", "size", "t.csv", "-",
                                        env={"COLUMNS": "72", "LINES": "16"}))
            texts = re.findall(r"(?m)^ *([0-9.]+) \|", drawn)
            few = few.replace("0.582762", "0").split()
            self.assertEqual(texts[::-1], few)

    def test_ticks_do_not_touch(self):
        """Also of small, broad and large pictures, and of a long axis."""
        sort = base.TOP / "docs/pictures/sort.csv"
        self.write("long.csv", ways_of([1 << at for at in range(30)], lambda way: 999 // way + 1))
        for words in ["3.3in"], ["7in"], ["40x3in"], ["800x500", "--scale", "2"], ["86x62mm"]:
            for file in sort, "long.csv":
                shown = self.shown("--only", "size", "--size", *words, file, "a.png")
                for axis in shown.axes[0].xaxis, shown.axes[0].yaxis:
                    boxes = [text.get_window_extent() for text in axis.get_ticklabels()]
                    for one, other in zip(boxes, boxes[1:]):
                        self.assertFalse(one.overlaps(other), words)
                    self.assertGreater(len(boxes), 1)

    def test_titles_and_names(self):
        """A title is text, and says where there are no references; names have blanks and
        dashes."""
        shown = self.shown("--title", "it's `a` \"b\" \\n \nc", "eight.csv", "a.svg")
        self.assertIn('it\'s `a` "b" \\n  c', shown.texts)
        self.write("t.csv", "64,1,1,64,0,0,0\n64,2,1,128,0,0,0\n")
        shown = self.shown("--title", "empty", "t.csv", "a.png")
        self.assertIn("empty (no references)", shown.texts)
        self.write("-a table.csv", EIGHT)
        data = self.data("--", "-a table.csv", "-an out.png")
        self.assertEqual(data, self.data("eight.csv", "a.png"))


KINDS = f"{table.HEADER},compulsory,capacity,conflict\n"
NO_DIN = "no table of din: a cache's size or misses are not among its columns\n"
ONE_DIN = din_rows({(64, "l"): (100,)})
# tables beside eight.csv and din.csv
TABLES = {
    "ways": ways_of(range(1, 30)), "two": EIGHT + "64,2,1,128,60,41,38\n",
    "none": EIGHT + "0,2,1,0,60,40,38\n", "wide": "128,1,1,128,9,1,0\n",
    "other": base.rows_of(1000, {(16, 2, 2): 200, (32, 2, 2): 70}),
    "cut": f"{table.HEADER},conflict\n64,1,1,64,50,50,49,-7-\n",
    "long": f"{table.HEADER},cost\n64,1,1,64,50,50,49,{'9' * 65}\n",
    "kinds": KINDS + "64,1,2,128,40,60,58,5,55,0\n64,2,1,128,45,55,53,5,55,-5\n",
    "sizes": KINDS + "64,1,2,128,40,60,58,5,55,0\n64,2,2,256,70,30,26,5,15,10\n",
    "head": f"{COLUMNS}\n", "seed": "seed,l1-u-misses\n1,5\n", "size": "l1-usize,l1-urepl\n64,l\n",
    "twice": f"{COLUMNS}\n{ONE_DIN}{ONE_DIN}", "short": f"{COLUMNS}\n{ONE_DIN[:-3]}\n",
    "zero": f"{COLUMNS}\n{ONE_DIN.replace('64', '0', 1)}\n",
    "traces": f"{COLUMNS}\n{ONE_DIN}{ONE_DIN.replace(',1000,', ',999,').replace('l', 'f')}\n",
    "word": f"{COLUMNS}\n{ONE_DIN.replace('100,', 'x,', 1)}",
    "sets": f"{COLUMNS}\n{ONE_DIN}".replace("l1-usize", "l1-usets"),
}
NO_CACHE, NO_ROW = "eight.csv: no cache has the", "line 2: no row of a table of din"
FAULTS = (
    ("two.csv -", "two.csv: the rows are not of one trace: 100 references in the first row,"
     " 101 in that of 64,2,1"),
    ("none.csv -", "none.csv: 0,2,1 is no cache of a sweep"),
    ("--ways 99 ways.csv a.png", "ways.csv: no cache has the associativity 99; there are "
     "1, 2, 4, 8, 16 and others\n"),
    ("--measure percent eight.csv a.png",
     "eight.csv: percent is no count: name the column that it is of\n"),
    ("absent.csv a.png", "absent.csv: No such file or directory"),
    ("--only traffic eight.csv a.png", "eight.csv: no column copybacks; there are bsize, sets,"),
    ("--only kinds eight.csv a.png", "eight.csv: no column fetch-misses; there are bsize, sets,"),
    ("--only traffic eight.csv eight.csv a.png",
     "several tables have the pictures size, curve, pareto, and not traffic\n"),
    ("eight.csv none/a.png", "none/a.png: No such file or directory"),
    ("eight.csv bin.png/a.png", "bin.png/a.png: Not a directory"),
    ("eight.csv folder.png", "folder.png: Is a directory"),
    ("eight.csv /proc/a.png", "/proc/a.png: "),
    ("--bsize 64 eight.csv a.png", f"{NO_CACHE} block size 64; there are 16, 32"),
    ("--ways 4 eight.csv a.png", f"{NO_CACHE} associativity 4; there are 1, 2"),
    ("--measure=x eight.csv -", "eight.csv: no column x; there are bsize, sets, assoc, size, hits"),
    ("--measure=conflict cut.csv -", "cut.csv: line 2: conflict is no number\n"),
    ("--measure=cost long.csv -", "long.csv: line 2: cost is too long a number\n"),
    ("--across=l1-usize eight.csv -", "eight.csv: --across is for a table of din\n"),
    # of tables of din
    ("head.csv -", "head.csv: a table without a row"), ("seed.csv -", f"seed.csv: {NO_DIN}"),
    ("size.csv -", f"size.csv: {NO_DIN}"),
    ("twice.csv -", "twice.csv: line 3: a second row of the same options"),
    ("short.csv -", f"short.csv: {NO_ROW}"), ("zero.csv -", f"zero.csv: {NO_ROW}"),
    ("traces.csv -", "traces.csv: line 3: the rows are not of one trace: 1000 references in the "
     "first row, 999 here"),
    ("word.csv -", "word.csv: line 2: l1-u-misses is no number"),
    ("--only=block din.csv -", "din.csv: a table of din has the pictures size and pareto\n"),
    ("--measure=x din.csv -", "din.csv: no column x; there are l1-usize, "),
    ("--measure=traffic din.csv -",
     "din.csv: no column traffic, which is for a table of a sweep; there are l1-usize, "),
    ("--across=l1-urepl din.csv -", "din.csv: no option l1-urepl with numbers; there are l1-usize, "
     "l1-ubs"),
    # of several tables
    ("eight.csv wide.csv a.png", "the tables have no block size in common\n"),
    ("--ways 1 eight.csv other.csv a.png",
     "other.csv: no cache has the associativity 1; there are 2\n"),
    ("--only block eight.csv other.csv a.png",
     "several tables have the pictures size, curve, pareto, and not block\n"),
    ("--only pareto din.csv din.csv a.png", "several tables of din have the picture size alone\n"),
    ("din.csv sets.csv a.png", "sets.csv: no option l1-usize with numbers; there are l1-usets, "),
    ("eight.csv din.csv a.png", "tables of sweeps and of din have no picture in common\n"),
    ("eight.csv none.csv a.png", "none.csv: 0,2,1 is no cache of a sweep"),
    ("--measure x other.csv eight.csv a.png", "other.csv: no column x; there are "),
    # of the three C's
    *((f"--only three-c {words} a.svg", fault) for words, fault in (
        ("eight.csv", "eight.csv: no column capacity; there are bsize, "),
        ("kinds.csv", "kinds.csv: a picture of the three C's is of caches of several sizes\n"),
        ("--bsize 32 sizes.csv", "sizes.csv: no cache has the block size 32; there are 64\n"),
        ("--measure hits sizes.csv",
         "--only three-c draws misses by their kinds, and no other measure\n"),
        ("--miss-cost 9 sizes.csv", "--only three-c draws misses by their kinds, and no other "),
        ("sizes.csv sizes.csv",
         "several tables have the pictures size, curve, pareto, and not three-c\n"),
        ("din.csv", "din.csv: a table of din has the pictures size and pareto\n"))),
)


class Refused(PlotTest):
    def test_faults_of_the_run(self):
        """Before anything is drawn."""
        self.write("bin.png", "")
        (self.folder / "folder.png").mkdir()
        self.write_din()
        for name, text in TABLES.items():
            self.write(f"{name}.csv", text)
        for words, fault in FAULTS:
            with self.subTest(words):
                self.refused(self.plot(*words.split()), 1, f"plot: {fault}")

    def test_wrong_arguments(self):
        for words in ("", "eight.csv", "eight.csv a.gif", "eight.csv a", "--only x eight.csv -",
                      "--bsize x eight.csv -", "--script eight.csv a.svg", "--bs 16 eight.csv -"):
            ran = self.plot(*words.split())
            self.refused(ran, 2, "plot: ", "'plot --help' explains the arguments\n")
            self.assertEqual(ran.stderr.count(b"\n"), 1)
        ran = self.plot(*["eight.csv"] * 8, "a.png")
        self.refused(ran, 2, "plot: 8 tables are too many for one picture; ")

    def test_missing_packages(self):
        """A text picture needs none."""
        own = ".local/lib/python{}.{}/site-packages".format(*sys.version_info)
        for package in "plotly", "matplotlib":
            (self.folder / f"empty/{own}/{package}").mkdir(parents=True)
            self.write(f"empty/{own}/{package}/__init__.py", "raise ModuleNotFoundError\n")
        env = {"HOME": str(self.folder / "empty"), "PATH": "/usr/bin"}
        for package, *outs in ("matplotlib", "a.png", "a.svg"), ("plotly", "a.html"):
            for out in outs:
                message = f"plot: {package} is missing: apt-get install python3-{package}\n"
                self.refused(self.plot("eight.csv", out, env=env), 1, message)
        self.assertIn(TITLES[0], self.good(self.plot("eight.csv", "-", env=env)))
        self.assertEqual(self.names(), ["eight.csv", "empty"])

    @needs("python3-matplotlib")
    def test_no_latex(self):
        ran = self.plot("eight.csv", "a.pgf", env={"PATH": str(self.folder)})
        self.refused(ran, 1, "plot: pdflatex is missing: apt-get install texlive-pictures\n")

    @needs("python3-matplotlib")
    def test_a_failure_leaves_what_was_there(self):
        self.write("a.png", "as before")
        limited = f"ulimit -f 5; exec {base.TOOLS}/plot eight.csv a.png"
        ran = self.run_command("bash", "-c", limited)
        self.refused(ran, 1, "plot: a.png: File too large\n")
        self.assertEqual(self.names(), ["a.png", "eight.csv"])
        self.assertEqual((self.folder / "a.png").read_text(), "as before")

    @needs("python3-matplotlib")
    def test_a_pipe_is_not_replaced(self):
        pipe = self.folder / "a.png"
        os.mkfifo(pipe)
        with subprocess.Popen(["timeout", "20", "cat", pipe], stdout=subprocess.PIPE) as reader:
            self.assertEqual(self.good(self.plot("eight.csv", "a.png")), "")
            self.assertEqual(reader.communicate(timeout=20)[0][:4], b"\x89PNG")
        self.assertTrue(pipe.is_fifo())

    @needs("python3-matplotlib")
    def test_letters_that_no_font_has(self):
        ran = self.plot("--title", "\U00013000", "eight.csv", "a.png")
        self.assertEqual((ran.returncode, ran.stdout), (0, b""))
        self.assertRegex(ran.stderr.decode(), r"\Aplot: matplotlib: Glyph 77824 .*missing.*\n\Z")

    def test_interrupt(self):
        """While it reads a table from a pipe."""
        os.mkfifo(self.folder / "pipe.csv")
        given = {"cwd": self.folder, "stderr": subprocess.PIPE}
        for number in (signal.SIGINT, signal.SIGTERM):
            with subprocess.Popen([base.TOOLS / "plot", "pipe.csv", "a.png"], **given) as ran:
                with open(self.folder / "pipe.csv", "wb"):
                    ran.send_signal(number)
                    self.assertEqual(ran.communicate(timeout=20)[1], b"")
                    self.assertEqual(ran.returncode, 128 + number)
        self.assertEqual(self.names(), ["eight.csv", "pipe.csv"])
