"""The page that steps a trace through a cache, and its form for a terminal."""

import html
import itertools
import json
import re

from base import EXAMPLES, HANDOUT, PROGRAM, ToolTest, model, needs

LAB = ("-s", 1, "-E", 2, "-b", 4)
OF_HANDOUT = (*LAB, "-t", HANDOUT)
ONE_LINE = ("-s", 1, "-E", 1, "-b", 4)
# Two sets of two blocks of 16 bytes. The block of 10 is written in line 4, so it is dirty where 210
# evicts it; the block of 110 is then the one used longest ago.
HANDOUT_TEXT = """\
handout.lackey: 2 sets of 2 ways, blocks of 16 bytes, LRU
The last column has the ways of the set after the step: their tags, * dirty """ """\
(changed since it came), [] evicted next, - free.
line  access   address  tag  set  offset  outcome              ways
   1  L             10    0    1       0  miss                 0 -
   2  M load        20    1    0       0  miss                 1 -
   2  M store       20    1    0       0  hit                  1* -
   3  L             22    1    0       2  hit                  1* -
   4  S             18    0    1       8  hit                  0* -
   5  L            110    8    1       0  miss                 [0*] 8
   6  L            210   10    1       0  miss eviction of 0*  10 [8]
   7  M load        12    0    1       2  miss eviction of 8   [10] 0
   7  M store       12    0    1       2  hit                  [10] 0*
hits:4 misses:5 evictions:2
"""
# A block is used again before the third one comes: LRU keeps it, FIFO doesn't.
ORDER = b"0 10\n0 20\n0 10\n0 30\n1 40\n4 0\n1 50\n"
NO_ALLOCATE = b"1 10\n0 10\n1 10\n0 20\n"
ONE_SET = ("-l1-usize", "32", "-l1-ubsize", "16", "-l1-uassoc", "2")
ORDERED = {
    "l": ["1 -", "[1] 2", "1 [2]", "[1] 3", "4* [3]", "all free", "5* -"],
    "f": ["1 -", "[1] 2", "[1] 2", "3 [2]", "[3] 4*", "all free", "5* -"],
}


def start_of(example, lines):
    return "".join((EXAMPLES / example).read_text().splitlines(keepends=True)[:lines])


def lab_words(*numbers):
    """The options of csim for a cache: its set bits, lines and block bits."""
    return [word for pair in zip(("-s", "-E", "-b"), numbers) for word in pair]


class ReplayTest(ToolTest):
    def replay(self, *arguments, **given):
        return self.run_tool("lab/replay", *arguments, **given)

    def page(self, *arguments, **given):
        return self.good(self.replay(*arguments, **given))

    def text(self, *arguments, **given):
        """The lines with --text."""
        return self.page(*arguments, "--text", **given).splitlines()

    def rows(self, *arguments, **given):
        """The columns of these for each step."""
        return [re.split("  +", row.strip()) for row in self.text(*arguments, **given)[3:-1]]

    def data(self, *arguments, **given):
        """What the page has been given to draw."""
        data = '<script type="application/json" id="data">(.*?)</script>'
        return json.loads(re.search(data, self.page(*arguments, **given))[1])

    def steps(self, *arguments, **given):
        return self.data(*arguments, **given)["steps"]


class Replay(ReplayTest):
    def test_the_handout_by_hand(self):
        self.assertEqual(self.page(*OF_HANDOUT, "--text"), HANDOUT_TEXT)
        self.assertEqual(self.page("-s1", "-E=2", "-b4", "--text", stdin=HANDOUT.read_bytes()),
                         HANDOUT_TEXT.replace("handout.lackey", "standard input"))

    def test_ways_by_hand(self):
        """Policies, and a flush: of three blocks in two sets two are dirty; three ways, by the
        handout's example, with a third line for the block of 210."""
        for policy, wanted in ORDERED.items():
            rows = self.rows(*ONE_SET, "-l1-urepl", policy, stdin=ORDER)
            self.assertEqual([row[-1] for row in rows], wanted)
        words = ("-l1-usize", 64, "-l1-ubsize", 16, "-l1-uassoc", 2)
        rows = self.rows(*words, stdin=b"1 10\n1 20\n0 40\n4 0\n4 0\n")
        self.assertEqual([row[1:] for row in rows[3:]], [
            ["flush", f"{dirty} written back", "all free"] for dirty in (2, 0)])
        rows = self.rows("-s", 1, "-E", 3, "-b", 4, "-t", HANDOUT)
        self.assertEqual([row[-1] for row in rows if row[4] == "1"],
                         ["0 - -", "0* - -", "0* 8 -", "[0*] 8 10", "0* [8] 10", "0* [8] 10"])

    def test_one_set(self):
        """The steps of set 1 of the handout's trace, with the lines and sets as in the whole."""
        first, *rows = HANDOUT_TEXT.splitlines()
        wanted = [row for row in rows[2:-1] if re.split("  +", row.strip())[4] == "1"]
        arguments = [*OF_HANDOUT, "--set", "1"]
        text = self.text(*arguments)
        self.assertEqual(text[0], first.replace(":", ", set 1:"))
        self.assertEqual(text[3:-1], wanted)
        self.assertEqual(len(wanted), 6)
        # of these the loads of 10, 110, 210 and 12 miss
        self.assertEqual(text[-1], "hits:2 misses:4 evictions:2")
        data = self.data(*arguments)
        self.assertEqual((data["sets"], [step["set"] for step in data["steps"]]), ([1], [1] * 6))
        # a flush counts the dirty blocks of both sets; what the other set sends is of no step
        two = ("-l1-usize", "32", "-l1-ubsize", "16", "--set", "0")
        steps = self.steps(*two, stdin=b"1 0\n1 10\n0 30\n4 0\n1 20\n")
        self.assertEqual([step["memory"][-6:] for step in steps], [" at 0.", "", "at 20."])
        self.assertIn("1 dirty block written back", steps[1]["why"])
        # more than the limit in all, but not in the set
        many = b" L 0,1\n" * 2000 + b" L 10,1\n"
        self.assertEqual(len(self.steps(*ONE_LINE, "--set", "1", stdin=many)), 1)
        for number, fault in (("2", "there is no set 2: the last one is 1"), ("-1", "--set"),
                              ("x", "--set: 'x' is no set such as 0 or 1c")):
            self.refused(self.replay(*OF_HANDOUT, f"--set={number}"), 2, fault)
        ran = self.replay(*lab_words(4, 2, 4), "-t", HANDOUT, "--set", "f")
        self.refused(ran, 1, "no reference for set f")

    def test_a_trace_up_to_a_line(self):
        """Of more than 1,000 steps the last, with what the sets hold before them."""
        text = self.text(*OF_HANDOUT, "--until", 4)
        self.assertEqual([row.split()[0] for row in text[3:-1]], ["1", "2", "2", "3", "4"])
        many = b" L 10,1\n" * 700 + b" S 30,1\n M 50,1\n" * 500
        data = self.data(*LAB, "--until", 1500, stdin=many)
        self.assertEqual([len(data["steps"]), data["steps"][-1]["line"]], [1000, 1500])
        first = data["steps"][0]
        self.assertEqual([first["line"], first["access"]], [834, "M store"])
        self.assertEqual(data["before"], [{"set": 1, "next": 1, "ways": [
            {"tag": "2", "since": 834, "dirty": True}, {"tag": "1", "since": 833, "dirty": True}]}])

    def test_reasons(self):
        """In words, with the step that decides; and what memory gets."""
        full, free = "Set 0 is full and does not hold tag", "Set 0 does not hold tag 1."
        dirt = "The write makes this block dirty: memory gets it only when it is evicted or"
        own = "the write itself (write-through, or no write-allocate) at"
        small = ("-l1-dsize", 16, "-l1-dbsize", 16)
        for words, trace, place, *wanted in (
            (ONE_SET, ORDER, 3, f"{full} 3. The block in way 1 (tag 2) is evicted: it was last "
             "used in trace line 2, the others later."),
            (ONE_SET, ORDER, 5, "A flush empties all sets. 1 dirty block written back."),
            ((*ONE_SET, "-l1-urepl", "f"), ORDER, 2, "Way 0 of set 0 holds tag 1. With FIFO a use "
             "does not change the order of eviction."),
            ((*ONE_SET, "-l1-urepl", "f"), ORDER, 3, f"{full} 3. The block in way 0 (tag 1) is "
             "evicted: it came in trace line 1, the others later."),
            ((*small, "-l1-dwalloc", "n"), NO_ALLOCATE, 0, f"{free} A write that misses brings no "
             "block in (no write-allocate).", f"Sent to memory: {own} 10."),
            ((*small, "-l1-dwalloc", "n"), NO_ALLOCATE, 1, f"{free} Way 0 is free and takes the "
             "block.", "Sent to memory: the missing block is read at 10."),
            ((*small, "-l1-dwalloc", "n"), NO_ALLOCATE, 2, f"Way 0 of set 0 holds tag 1. {dirt} "
             "flushed.", ""),
            ((*small, "-l1-dwalloc", "n"), NO_ALLOCATE, 3, f"{full} 2. The block in way 0 (tag 1) "
             "is evicted: it is the only one. It is dirty, so it is written back.",
             "Sent to memory: the evicted block, which is dirty, is written back at 10; then the "
             "missing block is read at 20."),
            # no block is dirty, and the write comes after the read of its block
            ((*small, "-l1-dwback", "n"), b"1 10\n1 24\n", 1, f"{full} 2. The block in way 0 (tag "
             "1) is evicted: it is the only one.",
             f"Sent to memory: the missing block is read at 20; then {own} 24."),
        ):
            step = self.steps(*words, stdin=trace)[place]
            for key, text in zip(("why", "memory"), wanted):
                self.assertEqual(step[key], text)

    def test_decimal_addresses(self):
        """Those of a textbook's exercise, in blocks of four words; and what is no decimal number
        is no address."""
        cache = ("-l1-usets", 2, "-l1-ubsize", 4, "-l1-uassoc", 3)
        numbers = (180, 43, 2, 191, 88, 190, 14, 181, 44, 186)
        trace = "".join(f"0 {at}\n" for at in numbers).encode()
        rows = self.rows(*cache, "--decimal", stdin=trace)
        self.assertEqual([[int(word) for word in row[2:6]] for row in rows],
                         [[at, at // 8, at // 4 % 2, at % 4] for at in numbers])
        self.assertEqual(rows[-2][6], "miss eviction of 23")
        lab = self.data(*LAB, "--decimal", "--set", "1", stdin=b" L 16,4\n M 48 , 4\n S 32,1\n")
        self.assertEqual([step["address"] for step in lab["steps"]], ["16", "48", "48"])
        self.assertEqual((lab["base"], lab["title"]), (10, "standard input, set 1"))
        for line in ("0 1a", "0 0x10", "0", "0 " + "9" * 21):
            ran = self.replay(*cache, "--decimal", stdin=f"0 1\n{line}\n".encode())
            self.refused(ran, 1, "replay: line 2: bad address\n")
        ran = self.replay(*lab_words(5, 1, 4), "--decimal", "--set", "32", stdin=b" L 16,4\n")
        self.refused(ran, 2, "there is no set 32: the last one is 31")

    def logged(self, place, step):
        """The lines of a log that a step tells, without the addresses of victims."""
        label, victim = {"read": 0, "write": 1, "fetch": 2}, step.get("evicted")
        if step["access"] == "flush":
            yield f"{place} flush {step['why'].split('. ')[1].split()[0]}"
        else:
            said = f"{step['outcome']}{' dirty' * bool(victim and victim['dirty'])}"
            yield f"{place} {label[step['access']]} {step['address']} {said}"
        for word, at in re.findall("(read|write|written)[^;]* at ([0-9a-f]+)", step["memory"]):
            read = 2 if step["access"] == "fetch" else 0
            yield f"memory {read if word == 'read' else 1} {at}"

    def test_steps_are_those_of_the_log(self):
        """Dirty blocks and what memory gets, by the model; what is bypassed is no step."""
        traces = ORDER * 3 + b"0 ffffffffffffffff\n", start_of("sort.din", 300).encode()
        names = ("bsize", "assoc", "repl", "walloc", "wback")
        for trace, place, policies, numbers in itertools.product(
            traces, ("l1-i", "l1-d", "l1-u"), ("laa", "faa", "lna", "fan"),
            ("size 64 4", "sets 2 3")
        ):
            first, number, ways = numbers.split()
            pairs = (first, number), *zip(names, ("8", ways, *policies))
            words = [word for name, value in pairs for word in (f"-{place}{name}", value)]
            written = model.run(["log", *words], lambda: trace, None)[0].splitlines()
            expected = [re.sub("eviction [0-9a-f]+", "eviction", line) for line in written
                        if not line.startswith("bypassed")]
            steps = self.steps(*words, stdin=trace)
            self.same([line for step in steps for line in self.logged(place, step)], expected)

    def test_what_is_drawn(self):
        """All sets of a small cache, else those that are used; the data can't end its element."""
        for bits, sets in (4, list(range(16))), (5, [1, 2, 17]):
            self.assertEqual(self.data(*lab_words(bits, 4, 4), "-t", HANDOUT)["sets"], sets)
        words = *lab_words(1, 1, 1), "-t"
        for encoding in ("utf-8", "latin-1"):
            self.assertIn("▶ ", self.page(*words, HANDOUT, env={"PYTHONIOENCODING": encoding}))
        name = self.write("<b> & \u20ac.trace", HANDOUT.read_text()).name
        page = self.page(*words, name)
        self.assertEqual((self.data(*words, name)["title"], "<b>" in page), (name, False))
        self.assertNotRegex(page, r"(?i)https?:|src=|@import|url\(", "the page asks for nothing")


class Faults(ReplayTest):
    def test_arguments(self):
        """Also those that the program refuses."""
        lab, small, one = "-s 1 -E 1 -b 4", "-l1-usize 64 -l1-ubsize 16", "one cache is wanted"
        bad = ": bad geometry; 'replay --help' explains the arguments\n"
        for words, text in (
            ("", one), (f"{lab} {small}", one), (f"{small} -l1-dsize 64", one),
            ("-s 1 -E 1", "-s, -E and -b are needed"),
            ("-s 21 -E 1 -b 4", "-s and -b are at most 20"), ("-s 1 -E 0 -b 4", bad),
            (f"{lab} --until 0", "--until wants a line from 1 on"),
            (f"{lab} --until x", "'x' is not a number"), ("-s 1 -E x -b 4", "'x' is not a number"),
            ("-s 1 -E 2049 -b 4", "at most 2,048 ways"),
            (f"{lab} -informat d", "-informat belongs to the options of din"),
            ("-l1-usize 64", "l1-u: size and bsize are needed"),
            (f"{small} -l1-uassoc 8", bad),
            (f"{small} -l1-urepl r", "invalid choice: 'r'"),
            (f"{small} -l2-usize 64", "unrecognized arguments"),
            ("-l1-usize 48 -l1-ubsize 16 -l1-uassoc 3", "replay: -l1-usize: bad value; "),
            ("-l1-usets 1 -l1-ubsize 16 -l1-uassoc 0 --set 0", bad),
            (f"{small} -l1-usets 2", bad),
        ):
            with self.subTest(words):
                self.refused(self.replay(*words.split()), 2, text)

    def test_traces(self):
        self.refused(self.replay(*ONE_LINE, "-t", "none"), 1, "replay: cannot open none\n")
        for text, fault in ((b" L 10,1\n L x,1\n", "replay: line 2: bad address\n"),
                            (b"0 10\n", "replay: line 1: bad label; the trace is read in the "
                             "lackey format, as ' L 10,4'\n"),
                            (b"I  10,1\n", "no reference for the cache l1-d")):
            self.refused(self.replay(*ONE_LINE, stdin=text), 1, fault)

    def test_limits(self):
        words = ("-s", 10, "-E", 4, "-b", 4)
        lines = [b" L %x,1\n" % (16 * at) for at in range(1, 1001)]
        trace = b"".join(lines)
        self.assertEqual(len(self.steps(*ONE_LINE, stdin=trace)), 1000)
        for more in (1, 300000):
            ran = self.replay(*ONE_LINE, stdin=trace + b" S 10,1\n" * more)
            self.refused(ran, 1, "more than 1,000 steps", "--until 500")
        self.refused(self.replay(*words, stdin=trace), 1, "4,000 ways", "2,048")
        self.assertEqual(len(self.text(*words, stdin=trace)), 1004)
        self.assertEqual(len(self.data(*words, stdin=b"".join(lines[:512]))["sets"]), 512)

    def test_a_log_that_differs(self):
        """A stand-in for the program changes a line of the log: the step that differs is named."""
        sets = "but by this tool's sets it is"
        for change, step, told in (
            ("s/ 22 hit/ 22 miss/", 3, f"'l1-d 0 22 miss', {sets} 'l1-d 0 22 hit'"),
            ("s/eviction 10 dirty/eviction 110/", 6,
             f"'l1-d 0 210 miss eviction 110', {sets} 'l1-d 0 210 miss eviction 10 dirty'"),
            ("s/ dirty//", 6, "'l1-d 0 210 miss eviction 10', but"),
            ("/ 18 hit/d", 4, "'l1-d 0 110 miss', but it is S"),
            ("s/ 0 12 .*/ flush 7/", 7, "'l1-d flush 7', but it is M load"),
        ):
            liar = self.executable("liar", "set -o pipefail", f'"{PROGRAM}" "$@" | sed "{change}"')
            lies = {"env": {"CACHESIM": str(liar)}}
            for more in ((), ("--text",)):
                ran = self.replay(*OF_HANDOUT, *more, **lies)
                self.refused(ran, 1, f"replay: line {step} of the trace: the log says {told}")


@needs("chromium")
class InABrowser(ReplayTest):
    # each key, and then what the page shows
    WATCH = """<script>
        const shown = [];
        const text = (id) => byId(id).innerText.replace(/\\s+/g, " ").trim();
        const note = () => shown.push(["summary", "step", "sets", "list"].map(text).join(" | "));
        note();
        for (const key of %s) {
            byId("at").dispatchEvent(new KeyboardEvent("keydown", {key, bubbles: true}));
            note();
        }
        byId("home").click();
        byId("on").click();
        note();
        byId("list").querySelectorAll("tr")[2].click();
        note();
        // the set of each step, as --text writes it
        const line = (box) => {
            const words = box.innerText.split(/\\s+/);
            const mark = words.includes("dirty") ? "*" : "";
            const tag = words.includes("free") ? "-" : words[words.indexOf("tag") + 1] + mark;
            return box.innerText.includes("evicted next") ? `[${tag}]` : tag;
        };
        const sets = steps.map((step, index) => {
            go(index + 1);
            const card = document.querySelector(".card.now");
            return card ? [...card.querySelectorAll(".way")].map(line).join(" ") : "all free";
        });
        const wide = [document.documentElement.scrollWidth, innerWidth];
        go(0);
        byId("predict").click();
        const asked = [text("step")];
        byId("at").dispatchEvent(new KeyboardEvent("keydown", {key: "m", bubbles: true}));
        asked.push(text("step"));
        byId("question").querySelector("button").click();
        asked.push(text("step"));
        // with caps lock
        byId("at").dispatchEvent(new KeyboardEvent("keydown", {key: "H", bubbles: true}));
        asked.push(text("step"));
        parent.postMessage({shown, sets, wide, asked, title: document.title}, "*");
    </script></body>"""
    # a window of a browser can't be as narrow as a telephone
    FRAME = """<body>
    <iframe src="page.html%s" width="%d" height="800" style="border: 0"></iframe><script>
        onmessage = (event) => document.body.replaceChildren(JSON.stringify(event.data));
    </script></body>"""
    KEYS = ["Home", "ArrowLeft", "ArrowRight", "End", "ArrowRight", "ArrowLeft"]
    # a page that asks for anything gets another title
    POLICY = """<head><script>
        addEventListener('securitypolicyviolation', () => { document.title = 'More'; });
    </script>"""

    def browse(self, file, *options):
        """What chromium writes when it is shown a file of the folder."""
        flags = ("--headless=new", "--no-sandbox", "--disable-gpu", *options)
        address, profile = (self.folder / file).as_uri(), f"--user-data-dir={self.folder}/profile"
        ran = self.run_command("chromium", *flags, profile, address)
        self.assertEqual(ran.returncode, 0)
        return ran.stdout.decode()

    def shown(self, page, place="", width=1280):
        """What the page shows at first, after each key, and after buttons; and its width."""
        page = page.replace("<head>", self.POLICY, 1)
        self.write("page.html", page.replace("</body>", self.WATCH % json.dumps(self.KEYS)))
        self.write("frame.html", self.FRAME % (place, width))
        seen = self.browse("frame.html", "--virtual-time-budget=20000", "--dump-dom")
        return json.loads(html.unescape(re.search("<body>(.*)</body>", seen, re.DOTALL)[1]))

    def test_keys_and_buttons(self):
        seen = self.shown(self.page(*OF_HANDOUT), "#7")
        at_7, home, before, on, end, after, back, button, row = seen["shown"]
        self.assertEqual(seen["title"], "A cache step by step: handout.lackey")
        for text in (
            "Step 7 of 9: trace line 6, L 210, miss, eviction. So far: hits 3, misses 4, "
            "evictions 1. | ",
            "tag bits from 5 up 1 0000 hex 10 set bit 4 1 hex 1 offset bits 3 to 0 0000 hex 0 ",
            "The block in way 0 (tag 0) is evicted: it was last used in trace line 4, the others "
            "later. It is dirty, so it is written back. Sent to memory: the evicted block, which "
            "is dirty, is written back at 10; then the missing block is read at 210. Next in the "
            "trace: M load 12 | ",
            "Set 0 way 0 dirty tag 1 used in trace line 3 way 1 free ▶ Set 1 way 0 tag 10 used "
            "in trace line 6 new, was 0 way 1 tag 8 used in trace line 5 evicted next | ",
        ):
            self.assertIn(text, at_7)
        last = "5 L 110 miss 6 L 210 miss, eviction 7 M load 12 7 M store 12"
        self.assertTrue(at_7.endswith(last), at_7)
        texts = home, before, on, end, after, back, button, row
        for text, steps in zip(texts, (0, 0, 1, 9, 9, 8, 1, 3)):
            self.assertTrue(text.startswith(f"Step {steps} of 9: "), text)
        self.assertIn("hits 4, misses 5, evictions 2.", end)
        # the first access misses, and so does the second, where the answer is a hit
        asked, right, wrong, last = seen["asked"]
        self.assertTrue(asked.endswith("What will L 10 do? hitmissmiss, eviction"), asked)
        self.assertIn("Right: your answer was miss. Right: 1 of 1.", right)
        self.assertIn("Wrong: your answer was hit. Right: 1 of 2.", wrong)
        self.assertIn("Right: your answer was hit. Right: 2 of 3.", last)

    def test_decimal(self):
        """The parts of an address in decimal digits, their bits as ever."""
        page = self.page(*LAB, "--decimal", stdin=b" L 16,4\n S 53,4\n L 1,1\n")
        seen = self.shown(page, "#2")["shown"][0]
        self.assertIn("tag bits from 5 up 1 decimal 1 set bit 4 1 decimal 1 offset bits 3 to 0 "
                      "0101 decimal 5", seen)
        self.assertIn("Step 2 of 3: trace line 2, S 53, miss.", seen)

    @needs("poppler-utils")
    def test_the_sheet_that_is_printed(self):
        """Rows to fill in, and then the same with answers."""
        self.write("page.html", self.page(*OF_HANDOUT))
        to = self.folder / "sheet.pdf"
        self.browse("page.html", "--no-pdf-header-footer", f"--print-to-pdf={to}")
        text = self.good(self.run_command("pdftotext", "-layout", to, "-"))
        sheet, _, answers = text.partition("\fAnswers")
        rows = [[" ".join(row.split()) for row in part.splitlines()] for part in (sheet, answers)]
        for row in ("1 L 10", "2 M store 20", "6 L 210", "7 M load 12"):
            self.assertIn(row, rows[0])
        for row in ("1 L 10 0 1 0 miss", "2 M store 20 1 0 0 hit",
                    "6 L 210 10 1 0 miss, eviction 0"):
            self.assertIn(row, rows[1])

    def test_sets_of_each_step(self):
        """They are those of --text."""
        handout, transpose = HANDOUT.read_bytes(), start_of("transpose.lackey", 100).encode()
        for trace, *words in ((handout, *lab_words(0, 2, 4)), (transpose, *lab_words(2, 4, 4)),
                              (ORDER, *ONE_SET, "-l1-urepl", "f")):
            sets = self.shown(self.page(*words, stdin=trace))["sets"]
            self.same(sets, [row[-1] for row in self.rows(*words, stdin=trace)])

    def test_narrow_and_wide(self):
        """Nothing is wider than the window, with the longest addresses too."""
        trace = b"0 ffffffffffffffff\n1 fffffffffffffff0\n0 0\n0 1\n0 efffffffffffffff\n" * 3
        for width, ways in itertools.product((1280, 400), (1, 2, 16)):
            words = ("-l1-usize", 16 * ways, "-l1-ubsize", 1, "-l1-uassoc", ways)
            scrolled, inner = self.shown(self.page(*words, stdin=trace), "#9", width)["wide"]
            self.assertEqual(inner, width)
            self.assertLessEqual(scrolled, inner)
