"""Pictures as they come out of matplotlib, and the page as a browser shows it."""

import os
import re
import shutil
import struct
import xml.etree.ElementTree

import base
from base import needs
from lib import table
from test_plot import ALL, AXES, EIGHT, TITLES, PlotTest, rows_of


def png_of(data):
    """The size of a PNG, which is not blank."""
    assert data[:8] == b"\x89PNG\r\n\x1a\n" and len(data) > 5000, len(data)
    return struct.unpack(">II", data[16:24])


def texts_of(data):
    """The texts of an SVG."""
    return ["".join(part.itertext()) for part in xml.etree.ElementTree.fromstring(data).iter()
            if part.tag.endswith("}text")]


@needs("python3-matplotlib")
class Drawn(PlotTest):
    def drawn(self, *arguments):
        self.assertEqual(self.good(self.plot(*arguments)), "")
        return (self.folder / arguments[-1]).read_bytes()

    def test_png(self):
        """96 dots an inch, or for print 300."""
        for words, size in (("--size 3.3x2.5in --only size", (990, 750)),
                            ("--title 8", (920, 800))):
            drawn = self.drawn(*words.split(), "eight.csv", "an out.png")
            self.assertEqual(png_of(drawn), size)
        words = ("--only", "size", "--", "eight.csv", "-a.png")
        self.assertEqual(png_of(self.drawn(*words)), (860, 480))
        mask = os.umask(0)
        os.umask(mask)
        drawn = self.folder / "-a.png"
        self.assertEqual(drawn.stat().st_mode & 0o777, 0o666 & ~mask)
        drawn.chmod(0o600)
        self.drawn(*words)
        self.assertEqual(drawn.stat().st_mode & 0o777, 0o600)
        self.assertEqual(self.names(), ["-a.png", "an out.png", "eight.csv"])

    def test_svg(self):
        """Texts are texts, and each line has a name."""
        drawn = self.drawn("eight.csv", "a.svg")
        texts = texts_of(drawn)
        for text in [*TITLES[:2], TITLES[2] + " (block size, sets, ways)", *AXES, "cache size",
                     "all caches", "32,2,2", "1 way", "2 ways", "32", "64", "128"]:
            self.assertIn(text, texts)
        for name in "size_1", "size_2", "block_2", "pareto_2":
            self.assertIn(f'<g id="{name}">', drawn.decode())
        marks = re.search('<g id="pareto_1">(.*?)</g>\\s*</g>', drawn.decode(), re.DOTALL)[1]
        self.assertEqual(marks.count("<use "), len(ALL))

    def test_bars(self):
        """Each goes from the least to the greatest in one piece, in its line's colour."""
        self.write_din()
        shown = self.shown("din.csv", "a.svg")
        self.assertEqual(shown.bars, [[(64, 12), (64, 18)], [(128, 3), (128, 4.2)]])
        colours = {tuple(several.get_color()[0]) for several in shown.axes[0].collections}
        self.assertEqual(colours, {(0, 158 / 255, 115 / 255, 1)})  # that of the third line

    def test_the_same_file(self):
        """Of the same table, whatever settings of matplotlib a user has."""
        self.write("matplotlibrc", "lines.linewidth: 9\ntext.usetex: True\n")
        for out in "a.png", "a.svg", "a.pdf", "a.html":
            drawn = self.drawn("--only", "size", "eight.csv", out)
            (self.folder / "matplotlibrc").unlink(missing_ok=True)
            self.assertTrue(drawn == self.drawn("--only", "size", "eight.csv", out), out)
            self.write("matplotlibrc", "lines.linewidth: 9\ntext.usetex: True\n")

    @needs("bubblewrap")
    def test_folders_that_are_read_only(self):
        """Without a word, though matplotlib would keep there what fonts it found."""
        around = "bwrap --ro-bind / / --dev /dev --proc /proc --tmpfs /tmp bash -c".split()
        ran = self.run_command(*around, f"{base.TOOLS}/plot - /tmp/a.png && head -c 4 /tmp/a.png",
                               env={"HOME": "/nonexistent"}, stdin=EIGHT.encode())
        self.assertEqual((ran.stdout, ran.stderr, ran.returncode), (b"\x89PNG", b"", 0))

    def test_eps(self):
        drawn = self.drawn("--size", "3.3x2in", "--only", "size", "eight.csv", "a.eps")
        left, low, right, top = map(int, re.search(
            rb"%%BoundingBox: (\d+) (\d+) (\d+) (\d+)", drawn).groups())
        self.assertTrue(abs(right - left - 238) < 3 and abs(top - low - 144) < 3)

    def test_text(self):
        for columns, lines in ((80, 24), (120, 40)):
            size = {"COLUMNS": str(columns), "LINES": str(lines)}
            drawn = self.good(self.plot("--title", "Eight", "eight.csv", "-", env=size))
            for text in [*TITLES, *AXES, "A*** 1 way\n", "B### 2 ways\n", ". all caches",
                         "32,2,2\n"]:
                self.assertIn(text, drawn)
            self.assertEqual(len(re.findall(r"(\A|\n\n) +Eight\n", drawn)), 3)
            alone = self.good(self.plot("--only", "block", "eight.csv", "-", env=size))
            alone = alone.splitlines()
            self.assertTrue(columns - 8 < max(map(len, alone)) <= columns)
            self.assertEqual(len(alone), lines - 1)
            self.assertEqual([line for line in alone if line != line.rstrip()], [])

    def test_places_in_a_text(self):
        """Each mark is above the tick of its size and beside the value of its misses."""
        drawn = self.good(self.plot("--only", "size", "eight.csv", "-",
                                    env={"COLUMNS": "90", "LINES": "50"})).splitlines()
        foot = next(at for at, line in enumerate(drawn) if "+---" in line)
        ticks = {size: drawn[foot + 1].index(size) + len(size) / 2 for size in ("32", "64", "128")}
        found = {(letter, at, line.index(letter)) for at, line in enumerate(drawn[:foot])
                 for letter in "AB" if letter in line.split("***")[0].split("###")[0]}
        for letter, size in ("A", "32"), ("A", "64"), ("B", "64"), ("B", "128"):
            self.assertTrue(any(letter == name and abs(column - ticks[size]) <= 1
                                for name, _, column in found), (letter, size, drawn))
        rows = {float(line.split("|")[0]): at for at, line in enumerate(drawn)
                if re.match(r" *[0-9.]+ \|", line)}
        highest = min(at for name, at, _ in found if name == "A")
        self.assertLessEqual(abs(highest - rows[50]), 1)  # 50 % with 1 way

    def test_odd_tables(self):
        """Whatever the table, all is drawn without a word."""
        (self.folder / "tables").mkdir()
        ways = "--bsize 64 --sets 1-2 --assoc 1-2000 --size 64-1m -t".split()
        for name, text in {
            "one": "64,32,8,16384,900,100,3\n",
            "all-hit": rows_of([(1, 0), (2, 0)]),
            "all-miss": rows_of([(1, 1000), (2, 1000)]),
            "no-reference": "64,1,1,64,0,0,0\n64,2,1,128,0,0,0\n",
            "one-byte": "1,1,1,1,5,5,0\n",
            "a-million": f"1048576,4,1048576,{1 << 42},{1 << 62},1,0\n",
            "ways": self.sweep(*ways, base.EXAMPLES / "sort.din"),
        }.items():
            self.write(f"tables/{name}", text)
            for out in ("-", "a.svg", "a.html"):
                drawn = self.good(self.plot(f"tables/{name}", out))
                for title in [TITLES[0][:24]] + [TITLES[2]] * (text.count("\n") > 1):
                    self.assertIn(title, drawn or (self.folder / out).read_text())

    def test_pictures_of_the_documents(self):
        """They can be drawn anew, by the commands beside them, as large as they are."""
        stored = base.TOP / "docs/pictures"
        copy = shutil.copytree(stored, self.folder / "docs/pictures")
        (self.folder / "examples").symlink_to(base.EXAMPLES)
        commands = re.findall("(?m)^    ((?:tools/plot|cachesim) .*)$",
                              (stored / "README.md").read_text())
        self.assertEqual(len(commands), 3)
        pictures = sorted(path.name for path in stored.glob("*.png"))
        self.assertEqual(pictures, ["sort.png", "traffic.png"])
        for name in pictures:
            (copy / name).unlink()
        for command in commands:
            command = re.sub("^tools", str(base.TOOLS), command)
            self.good(self.run_command("bash", "-c", command))
        for name in pictures:
            was, made = (png_of((folder / name).read_bytes()) for folder in (stored, copy))
            self.assertEqual(made, was)
        self.assertEqual(len(table.read_table(*table.lines_of(stored / "sort.csv"))), 633)


@needs("python3-matplotlib")
class Texts(PlotTest):
    """A title, a measure and a name of a table are drawn as they are, with any letters."""

    WILD = ("'a", "''", "a''b", "it's", "'`date`'", "@b", '"q"\\n\'', "{c}^2_3", "'0'7\\0471",
            "&lt;<b>", "x'$y", "$\\alpha$", "'%g'#;!", "\\frac{1}{2}", "~a|b>c", "]]>", "éü", "_a")

    def plot_of(self, text, *out):
        rows = f"{table.HEADER},{text}\n16,1,1,16,5,5,4,7\n16,2,1,32,6,4,2,9\n"
        self.write(f"{text} 1.csv", rows)
        self.write("2.csv", rows)
        words = ["--title", text, "--measure", text, "--only", "size"]
        self.assertEqual(self.good(self.plot(*words, f"{text} 1.csv", "2.csv", *out)), "")

    def test_svg(self):
        for text in self.WILD:
            with self.subTest(text):
                self.plot_of(text, "a.svg")
                texts = texts_of((self.folder / "a.svg").read_bytes())
                self.assertLessEqual({text, f"{text} 1"}, {*texts})
                self.assertEqual(texts.count(text), 2)

    @needs("texlive-pictures", "poppler-utils")
    def test_pgf(self):
        """In a paper too: LaTeX sets the letters, and does nothing by them."""
        for text in self.WILD:
            with self.subTest(text):
                self.plot_of(text, "a.pgf")
                self.write("a.tex", "\\documentclass{article}\n\\usepackage[T1]{fontenc}\n"
                           "\\usepackage{pgf}\n\\begin{document}\n\\input{a.pgf}\n"
                           "\\end{document}\n")
                ran = self.run_command("pdflatex", "-halt-on-error", "a.tex")
                self.assertEqual(ran.returncode, 0, ran.stdout)
                shown = self.good(self.run_command("pdftotext", "a.pdf", "-"))
                self.assertIn(text, shown.replace("”", '"').replace("’", "'"))


@needs("python3-plotly")
class Page(PlotTest):
    def lines(self, *arguments):
        return self.figures(*arguments)[0]

    def page(self, *arguments):
        self.assertEqual(self.good(self.plot(*arguments, "a page.html")), "")
        return (self.folder / "a page.html").read_text()

    def test_it_has_all_and_fetches_nothing(self):
        page = self.page("--title", "<Eight> & more", "eight.csv")
        others, *scripts = re.split("<script>|</script>", page)[::2], *page.split("<script>")[1:]
        self.assertNotRegex("".join(others), "(src|href|srcset|data|action|poster)=")
        policy = re.search('Content-Security-Policy" content="([^"]*)"', page)[1]
        self.assertTrue(policy.startswith("default-src 'none';"), policy)
        self.assertNotRegex(policy, r"http|\*|'self'|connect")
        self.assertTrue(len(scripts) == 2 and len(scripts[0]) > 1_000_000)
        self.assertNotIn("plot.ly", "".join(page.split(scripts[0].split("</script>")[0])))
        self.assertIn("<h1>&lt;Eight&gt; &amp; more</h1>", page)

    def test_formats_of_several_tables(self):
        for only in ("size", "pareto"):
            given = "--only", only, "eight.csv", "eight.csv"
            for out in ("a.png", "a.svg", "a.pdf", "a.eps", "-"):
                self.good(self.plot(*given, out))
            lines = self.lines(*given)[only].popitem()[1]
            shape = "linear" if only == "size" else "hv"
            self.assertEqual([line["line"]["shape"] for line in lines], [shape] * 2)
            self.assertTrue(lines[1]["hovertext"][0].startswith("eight.csv<br>"))
        self.assertIn("<p>2 tables.<span", (self.folder / "a page.html").read_text())

    def test_data(self):
        figures = self.lines("eight.csv")
        self.assertEqual({name: list(choices) for name, choices in figures.items()},
                         {"size": ["16", "32"], "block": ["1", "2"], "pareto": ["0"]})
        one, two = figures["size"]["16"]
        self.assertEqual((one["name"], one["x"], one["y"]), ("1 way", [32, 64], [40, 30]))
        self.assertEqual((two["name"], two["x"], two["y"]), ("2 ways", [64, 128], [25, 10]))
        self.assertEqual(two["hovertext"][0], "2 ways<br>64 bytes: block 16, sets 2, ways 2<br>"
                         "hits 75, misses 25, evictions 21<br>miss ratio in per cent: 25")
        self.assertEqual([one["visible"], figures["size"]["32"][0]["visible"]], [False, True])
        for ways, lines in (("1", {"32": [40, 50], "64": [30, 32]}),
                            ("2", {"64": [25, 28], "128": [10, 8]})):
            data = figures["block"][ways]
            self.assertEqual({line["name"]: line["y"] for line in data}, lines)
        every, front, tail = figures["pareto"]["0"]
        self.assertEqual(sorted(zip(every["x"], every["y"])), sorted(ALL))
        self.assertEqual((front["x"], front["y"]), ([32, 64, 128], [40, 25, 8]))
        self.assertEqual((front["line"]["shape"], every["mode"]), ("hv", "markers"))
        self.assertEqual((tail["x"], tail["y"], tail["mode"]), ([128, 128], [8, 8], "lines"))

    def test_a_column_that_another_choice_widens(self):
        """With 4 ways there is one block size, and with 1 way there are two."""
        rows = rows_of([(1, 500), (2, 300)]) + rows_of([(2, 400)], 32)
        self.write("t.csv", rows + "64,1,4,256,900,100,96\n")
        self.assertEqual(list(self.lines("t.csv")), ["size", "block", "pareto"])
        drawn = {name.split("_")[0] for name in self.data("t.csv", "a.svg")}
        self.assertEqual(drawn, {"size", "pareto"})

    def test_counts_of_the_table(self):
        page = self.page("--measure", "evictions", "eight.csv")
        self.assertIn("<h1>Evictions</h1>\n<p>8 caches, 100 references.<", page)
        self.write_din()
        self.write("din.csv", (self.folder / "din.csv").read_text().replace(",0\n", ",30\n"))
        # also those that no cache takes
        self.assertIn("<p>10 runs, 1,030 references.<", self.page("din.csv"))

    def test_a_line_that_is_cut(self):
        """Nothing is between the points where it is cut, and each keeps what is told of it."""
        self.write("t.csv", rows_of([(2, 900), (8, 700), (16, 600)]) + "64,4,2,512,500,500,0\n")
        line = self.lines("--only", "size", "t.csv")["size"]["64"][0]
        self.assertEqual((line["x"], line["y"]), ([128, None, 512, 1024], [90, None, 70, 60]))
        self.assertEqual([told and told.split("<br>")[1] for told in line["hovertext"]], [
            "128 bytes: block 64, sets 2, ways 1", None, "512 bytes: block 64, sets 8, ways 1",
            "1,024 bytes: block 64, sets 16, ways 1"])

    def test_axes(self):
        """Plotly takes the ends of a logarithmic axis as powers of ten. Ticks' texts are values."""
        layout = self.figures("eight.csv")[1]["size"]
        for axis, least, greatest in (("xaxis", 32, 128), ("yaxis", 8, 50)):
            self.assertEqual(layout[axis]["type"], "log")
            low, high = (10 ** end for end in layout[axis]["range"])
            self.assertTrue(least / 2 < low < least, (axis, low))
            self.assertTrue(greatest < high < 2 * greatest, (axis, high))
            values, texts = layout[axis]["tickvals"], layout[axis]["ticktext"]
            self.assertEqual((len(values) > 1, list(map(float, texts))), (True, values))

    def test_data_of_din(self):
        """The mean over three seeds, 3.5, is 0.5 above the least and 0.7 below the greatest."""
        self.write_din()
        first, _, line = self.lines("din.csv")["size"]["0"]
        self.assertEqual((first["name"], first["x"], first["y"]), ("LRU", [64, 128], [10, 2]))
        self.assertNotIn("error_y", first)
        self.assertEqual((line["name"], line["x"], line["y"]), ("random", [64, 128], [15, 3.5]))
        for name, bars in ("array", [3, 0.7]), ("arrayminus", [3, 0.5]):
            self.assertEqual([round(length, 9) for length in line["error_y"][name]], bars)
        self.assertEqual(line["hovertext"][1], "random<br>l1-usize 128<br>l1-ubsize 16<br>"
                         "l1-uassoc 2<br>l1-urepl r<br>size 128<br>miss ratio in per cent: 3.5 (3 "
                         "to 4.2)")

    def test_names_are_texts(self):
        """Not HTML, of which plotly takes some, and none ends the script."""
        name = "</script><b>&"
        rows = "".join(f"{row},7\n" for row in EIGHT.splitlines())
        self.write("t.csv", f"{table.HEADER},{name}\n{rows}")
        page = self.page("--measure", name, "--only", "size", "t.csv")
        self.assertEqual(page.count("</script>"), page.count("<script"))
        layout = self.figures("--measure", name, "--only", "size", "t.csv")[1]["size"]
        self.assertEqual(layout["yaxis"]["title"]["text"], "&lt;/script&gt;&lt;b&gt;&amp;")

    @needs("chromium")
    def test_in_a_browser(self):
        """The choice behind '#', one from a menu, what is told of a point, and no other request."""
        page = self.page("--title", "Eight", "eight.csv")
        watch = """<head><script>
            addEventListener('securitypolicyviolation', () => { document.title = 'More'; });
        </script>"""
        choose = """<script>
            const menu = document.querySelector("select[name=ways]");
            menu.value = "1";
            menu.dispatchEvent(new Event("change"));
            const line = document.getElementById("block").data.findIndex(
                trace => trace.visible && trace.name == "64");
            Plotly.Fx.hover("block", [{curveNumber: line, pointNumber: 1}]);
            document.body.dataset.hash = location.hash;
        </script></body>"""
        self.write("watched.html", page.replace("<head>", watch, 1).replace("</body>", choose))
        shown = self.browsed("watched.html", place="#bsize=16")
        shown = re.sub("<script.*?</script>", "", shown, flags=re.DOTALL)
        for text in (
            "Miss ratio by cache size: blocks of 16 bytes", "Miss ratio by block size: 1 way",
            TITLES[2], "Eight</h1>", "<title>Eight</title>", 'data-hash="#bsize=16&amp;ways=1"',
            "64 bytes: block 32, sets 2, ways 1", "hits 68, misses 32, evictions 30",
            "miss ratio in per cent: 32",
        ):
            self.assertIn(text, shown)
        picture = '<div id="?(size|block|pareto)"?[^>]*class="[^"]*js-plotly-plot'
        self.assertEqual(len(re.findall(picture, shown)), 3)
        self.assertGreaterEqual(shown.count('class="main-svg"'), 3)
