"""How pictures look: on paper, in few columns, without colour, and in a narrow or dark browser."""

import json
import re

import base
from base import needs
from test_plot import PlotTest, rows_of

# Where each text of a page stands, and whether one is cut or two of one axis or legend touch
LOOK = """<script>
addEventListener("load", () => setTimeout(() => {
    const found = [];
    const box = node => node.getBoundingClientRect();
    const touch = (one, other) => one.left < other.right && other.left < one.right
        && one.top < other.bottom && other.top < one.bottom;
    const named = ".xtick text, .ytick text, .legendtext, .legendtitletext, .xtitle, .ytitle";
    for (const plot of document.querySelectorAll(".js-plotly-plot")) {
        const texts = [...plot.querySelectorAll(named)], all = box(plot);
        texts.forEach((text, at) => {
            const its = box(text), told = text.textContent;
            if (its.right > all.right + 1 || its.left < all.left - 1) found.push("cut: " + told);
            for (const other of texts.slice(at + 1)) {
                if (touch(its, box(other))) found.push(told + " touches " + other.textContent);
            }
        });
    }
    const colour = node => getComputedStyle(node).fill || getComputedStyle(node).color;
    parent.postMessage(JSON.stringify({
        found, width: innerWidth, wide: document.documentElement.scrollWidth,
        background: getComputedStyle(document.body).backgroundColor,
        filter: getComputedStyle(document.querySelector(".plotly-graph-div")).filter,
        tick: colour(document.querySelector(".xtick text")),
        line: document.querySelector(".js-line").style.stroke,
        ticks: [...document.querySelectorAll("#size .ytick text")].map(text => text.textContent),
    }), "*");
}, 500));
</script></body>"""
# A browser without a window has no page of less than 500 pixels, but a frame in it may be narrower
FRAME = """<body><script>onmessage = event => { document.body.dataset.look = event.data; };</script>
<iframe src="look.html" style="width: %dpx; height: 1500px; border: 0"></iframe></body>"""


class LooksTest(PlotTest):
    def setUp(self):
        super().setUp()
        self.write_din()
        self.sort = base.TOP / "docs/pictures/sort.csv"

    def look(self, *arguments, width, dark=False):
        """What a browser shows of a page."""
        self.good(self.plot(*arguments, "a.html"))
        self.write("look.html", (self.folder / "a.html").read_text().replace("</body>", LOOK))
        self.write("frame.html", FRAME % width)
        options = ["--window-size=1400,1600", *["--blink-settings=preferredColorScheme=0"] * dark]
        look = re.search('data-look="([^"]*)"', self.browsed("frame.html", *options))[1]
        return json.loads(look.replace("&quot;", '"'))


@needs("python3-matplotlib")
class Looks(LooksTest):
    def test_mono(self):
        """Each line has dashes and marks of its own, and all are black or grey."""
        shown = self.shown("--mono", "--only", "size", self.sort, "a.svg")
        looks = [(line.get_color(), str(line._dash_pattern), line.get_marker())
                 for line in shown.artists.values()]
        self.assertEqual(({colour for colour, _, _ in looks}, len(looks)), ({"#000000"}, 5))
        self.assertEqual([len(set(look)) for look in zip(*looks)], [1, 5, 5])
        whole = self.shown("--mono", self.sort, "a.svg")
        colours = {artist.get_color() for artist in whole.artists.values()}
        self.assertEqual(colours, {"#000000", "#bbbbbb", "black"})
        shown = self.shown(self.sort, "a.svg")
        self.assertEqual({line.get_linestyle() for line in shown.artists.values()}, {"-", "None"})
        shown = self.shown("--mono", "din.csv", "a.svg")
        self.assertEqual({bar.get_linestyle()[0] for bar in shown.axes[0].collections},
                         {(0, None)})

    def test_sizes(self):
        """The sides in inches, the dots of each, and the points of letters; or what is refused."""
        small = "--size is too small for 1 picture with type that can be read"
        for words, out, wanted in (
            ("3.3in", "a.pdf", (3.3, 2.64, 300, 7)), ("80x60mm", "a.pdf", (3.15, 2.362, 300, 7)),
            ("7in", "a.pdf", (7, 3.92, 300, 8)), ("3.3in", "a.png", (3.3, 2.64, 300, 7)),
            ("3.3in", "a.pgf", (3.3, 2.64, 300, 7)), ("", "a.eps", (7, 3.92, 300, 8)),
            ("700x400", "a.png", (700 / 96, 400 / 96, 96, 10.5)),
            ("6cm", "a.svg", (2.362, 1.89, 300, 7)),
            ("640x480px", "a.svg", (640 / 96, 5, 96, 10.5)),
            ("1600x900 --scale 2", "a.png", (1600 / 96, 900 / 96, 96, 21)),
            ("10x6in --scale 2.5", "a.pdf", (10, 6, 300, 20)),
            ("860 --scale 0.2", "a.pdf", (860 / 96, 860 * 0.56 / 96, 96, 2.1)),
            ("20000x20000 --scale 20", "a.svg", (20000 / 96, 20000 / 96, 96, 210)),
            ("", "a.png", (860 / 96, 5, 96, 10.5)), ("--scale 2", "a.png", (1720 / 96, 10, 96, 21)),
            ("--scale 2", "a.pdf", (14, 7.84, 300, 16)),
            ("1in", "a.pdf", small), ("3.3x0.5in", "a.pdf", small),
            ("3in", "-", "--size is for .png, .svg, .pdf, .eps and .pgf"),
            ("0", "a.png", "too small"),
            ("x", "a.png", "'x' is no size such as 3.3in, 80x60mm or 800x600; "),
            ("8cmx5cm", "a.svg", "'8cmx5cm' is no size"), ("3ft", "a.png", "'3ft' is no size"),
            ("20001", "a.png", "'20001' is no size"),
            ("3in --scale 0.19", "a.png", "'0.19' is no scale from"),
            ("3in --scale 20.1", "a.png", "'20.1' is no scale from"),
            ("3in --scale x", "a.png", "'x' is no scale from"),
            ("3in --scale 9", "a.png", "--size is too small for 1 picture"),
        ):
            size = ["--size"] * (bool(words) and not words.startswith("-"))
            given = ["--only", "block", *size, *words.split(), "eight.csv", out]
            with self.subTest(words=words, out=out):
                if isinstance(wanted, str):
                    self.refused(self.plot(*given), 2, "plot: ", wanted)
                    continue
                figure = self.shown(*given).figure
                letters = figure.get_axes()[0].xaxis.label.get_size()
                for got, one in zip((*figure.get_size_inches(), figure.dpi, letters), wanted):
                    self.assertAlmostEqual(got, one, 2)
        for option in ("--size", "--scale"):
            ran = self.plot(option, "3", "eight.csv", "a.html")
            self.refused(ran, 2, f"plot: {option} is for .png, .svg, .pdf, .eps and .pgf; ")

    def boxes(self, *arguments):
        """Where the left, right, bottom and top of each picture are, in parts of the whole."""
        shown = self.shown(*arguments)
        width, height = shown.figure.bbox.size
        boxes = [axes.get_window_extent() for axes in shown.axes]
        return [[getattr(box, side) / (width if side[0] == "x" else height) for box in boxes]
                for side in ("x0", "x1", "y0", "y1")]

    def test_narrow_pictures_stand_in_a_column(self):
        left, right, bottom, top = self.boxes("--size", "3.3in", self.sort, "a.pdf")
        self.assertTrue(max(left) - min(left) < 0.001 and min(right) > 0.9, (left, right))
        self.assertTrue(top[1] < bottom[0] and top[2] < bottom[1], (bottom, top))

    def test_all_is_within(self):
        """Titles, legends and names of axes, which don't touch a legend or each other."""
        words = "--title", "A title that is rather long " * 5
        self.write("long-name-of-a-table-.csv", (self.folder / "eight.csv").read_text())
        tables = "long-name-of-a-table-.csv", "eight.csv", "eight.csv", "eight.csv"
        for size in ["--size", "3.3in"], ["--size", "7in"], [], ["--scale", "2"]:
            for given in [self.sort], ["din.csv"], ["--mono", "--only", "size", *tables]:
                shown = self.shown(*words, *size, *given, "a.png")
                legends = [axes.get_legend() for axes in shown.axes if axes.get_legend()]
                texts = [text for text in shown.figure.findobj(lambda one: hasattr(one, "get_text"))
                         if text.get_text() and text.get_visible()
                         and text not in shown.labels and not any(
                             text in one.findobj() for one in legends)]
                boxes = [one.get_window_extent() for one in (*legends, *texts)]
                width, height = shown.figure.bbox.size
                for at, box in enumerate(boxes):
                    self.assertTrue(box.x0 > -1 and box.y0 > -1 and box.x1 < width + 1
                                    and box.y1 < height + 1, (size, given, (legends + texts)[at]))
                    for other in boxes[at + 1:]:
                        self.assertFalse(box.overlaps(other), (size, given, (legends + texts)[at]))

    def test_one_block_size(self):
        """No picture by block size: its points would be a column. The other two are side by side.
        Of one cache one is left."""
        self.write("t.csv", rows_of([(1, 500), (2, 300), (4, 100)]))
        data = self.data("t.csv", "a.svg")
        self.assertEqual({name.split("_")[0] for name in data}, {"size", "pareto"})
        left, right, bottom, _ = self.boxes("t.csv", "a.svg")
        self.assertTrue(right[0] < 0.5 < left[1] and bottom[0] == bottom[1], (left, right))
        self.write("one.csv", "64,32,8,16384,900,100,3\n")
        self.assertEqual(list(self.data("one.csv", "a.svg")), ["size_1"])
        self.assertEqual(list(self.data("--only", "block", "one.csv", "a.svg")), ["block_1"])

    @needs("poppler-utils")
    def test_pdf(self):
        """As large as asked, with its fonts within, and all texts on the page."""
        words = "--size 3.3x2.4in --mono --title Eight --only size eight.csv a.pdf"
        self.good(self.plot(*words.split()))
        for command, told in (("pdfinfo", r"Page size: +23[78](\.\d+)? x 17[23](\.\d+)? pts"),
                              ("pdffonts", r"DejaVuSans +\w+ TrueType.* yes ")):
            self.assertRegex(self.good(self.run_command(command, "a.pdf")), told)
        text = self.good(self.run_command("pdftotext", "a.pdf", "-"))
        for words in ("Eight", "Miss ratio by cache size: blocks of 32 bytes",
                      "miss ratio in per cent", "1 way", "2 ways", "128"):
            self.assertIn(words, text)
        boxes = self.good(self.run_command("pdftotext", "-bbox", "a.pdf", "-"))
        places = re.findall(r'xMin="(.*)" yMin="(.*)" xMax="(.*)" yMax="(.*)">', boxes)
        for left, top, right, bottom in (map(float, place) for place in places):
            self.assertTrue(left >= 0 and top >= 0 and right <= 238 and bottom <= 173, boxes)

    def test_no_warning_where_the_language_is_c(self):
        env = {"LC_ALL": "C", "LANG": "C"}
        for out in ("a.png", "a.svg", "a.pdf", "-"):
            self.good(self.plot("--title", "é", "eight.csv", out, env=env))

    def test_forty_columns(self):
        """All of a text picture is within, and no text runs into another; it has no fewer."""
        for asked, columns in (20, 40), (50, 50), (71, 71):
            env = {"COLUMNS": str(asked), "LINES": "30"}
            for arguments, *named in (
                (["--only", "size", self.sort], "***A*** 1 way", "@@@E@@@ 16 ways",
                 "blocks of 64 bytes", "Miss ratio by cache size"),
                (["--only", "block", self.sort], "cache size\n", "***A*** 1K", "&&&F&&& 1M",
                 "Miss ratio by block size: 4 ways\n"),
                (["--only", "pareto", self.sort], "The smallest caches that miss least",
                 ". all caches\n", "o fewest misses up to this"),
                (["din.csv"], "***A*** LRU", "###B### FIFO", "$$$C$$$ random",
                 "Miss ratio by cache size\n"),
            ):
                drawn = self.good(self.plot(*arguments, "-", env=env))
                self.assertTrue(columns - 8 < max(map(len, drawn.splitlines())) <= columns, drawn)
                for words in [*named, "\nmiss ratio in per cent\n"]:
                    self.assertIn(words, drawn)


@needs("python3-plotly", "chromium")
class Page(LooksTest):
    def test_narrow_and_wide(self):
        for width, dark, background in ((400, True, "rgb(24, 26, 27)"),
                                        (1280, False, "rgba(0, 0, 0, 0)")):
            look = self.look(self.sort, width=width, dark=dark)
            self.assertEqual(look["found"], [])
            self.assertLessEqual(look["wide"], look["width"])
            self.assertEqual(look["background"], background)
            self.assertEqual((look["line"], look["tick"]), ("rgb(0, 114, 178)", "rgb(34, 34, 34)"))
            self.assertEqual("invert" in look["filter"], dark)
            self.assertEqual(look["ticks"], "0.05 0.1 0.2 0.5 1 2 5 10 20".split())

    def test_din(self):
        look = self.look("--mono", "din.csv", width=400)
        self.assertEqual((look["found"], look["line"]), ([], "rgb(0, 0, 0)"))
        script = (self.folder / "a.html").read_text()
        self.assertEqual(re.findall('"dash":"([a-z]+)"', script), ["solid", "dash", "dot"])

    @needs("poppler-utils")
    def test_print(self):
        """Each picture is whole on one page, with its legend, and without what can be clicked. A
        dark browser prints on white."""
        self.good(self.plot(self.sort, "a.html"))
        for options in [], ["--blink-settings=preferredColorScheme=0"]:
            self.browsed("a.html", "--no-pdf-header-footer", "--print-to-pdf=a.pdf", *options)
            pages = self.good(self.run_command("pdftotext", "-layout", "a.pdf", "-")).split("\f")
            titles = ["Miss ratio by cache size: blocks of 64 bytes", "Miss ratio by block size",
                      "The smallest caches that miss least"]
            for title, *texts in zip(titles, ("16 ways", "256K", "fewest misses up to this size"),
                                     ("cache size in bytes", "block size in bytes", "1M")):
                page, = [page for page in pages if title in page]
                self.assertTrue(all(text in page for text in texts), pages)
            self.assertNotIn("Associativity", "".join(pages))
            self.assertNotIn("Drag", "".join(pages))
            boxes = self.good(self.run_command("pdftotext", "-bbox", "a.pdf", "-"))
            width = float(re.search('<page width="([0-9.]+)"', boxes)[1])
            self.assertLess(max(map(float, re.findall('xMax="([0-9.]+)"', boxes))), width - 20)
