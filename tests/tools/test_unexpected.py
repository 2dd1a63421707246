"""What nobody expects gets a line, whatever reads it: numbers of any length, terminals of any
width, names of any bytes. No tool shows a traceback, or a letter that would steer a terminal."""

import math
import os
import re

import base
from base import OVER_A_TRACE, TOOLS
from lib import tool

LONG = "9" * 5000
SPACE, CACHE = " ".join(base.SPACE), " ".join(base.CACHE)
# of each tool lines of words, of which N is a number; t.din is a trace, t.csv a table
NUMBERS = {
    "any-index": tuple(f"t.din --bsize {words}" for words in (
        "N --sets 3 --assoc 1", "16 --sets N --assoc 1", "16 --sets 3 --assoc N",
        "16 --sets 3 --assoc 1 --index N", "16 --sets 3 --assoc 1 --index block%N")),
    "best": ("t.csv --up-to N", "t.csv --rows N", "t.csv --within N", "t.csv --below N",
             "t.csv --miss-cost N", "t.csv --miss-cost 1+N", "t.csv --miss-cost 1+1/N"),
    "by-line": (f"t.din {CACHE.replace('128', 'N')}",
                "t.din -l1-dsets 4 -l1-dbsize 16 -l1-dassoc N", f"t.din {CACHE} --callers N"),
    "by-page": (f"t.din --page N {CACHE}", f"t.din --page Nk {CACHE}"),
    "cluster/submit": (f"run N t.din {SPACE}", f"run 2 t.din {SPACE.replace('64', 'N')}"),
    "din-table": (f"N t.din {CACHE}", f"2 t.din {CACHE.replace('128', 'N')}",
                  f"2 t.din {CACHE.replace('128', '64-N')}", f"2 t.din {CACHE} --seed N",
                  f"2 t.din {CACHE} --seed 1-N", "2 t.din -l1-dsets 4 -l1-dbsize 16 -l1-dassoc N"),
    "lab/grade": ("--jobs N --seconds 1 /bin/true", "--seconds N /bin/true"),
    "lab/grade-class": ("--jobs N .", "--seconds N ."),
    "lab/lab-transpose": ("--size NxN t.c", "--seconds N t.c"),
    "lab/replay": ("-s N -E 2 -b 4 -t t.din", "-s 1 -E N -b 4 -t t.din",
                   "-s 1 -E 2 -b N -t t.din", "-s 1 -E 2 -b 4 -t t.din --only N"),
    "optimal": (f"t.din {SPACE.replace('64', 'N')}",),
    "over-time": (f"t.din {CACHE} --each N",),
    "plot": ("--bsize N t.csv t.svg", "--ways N t.csv t.svg", "--size N t.csv t.svg",
             "--scale N t.csv t.svg", "--miss-cost N t.csv t.svg"),
    "prefetch": (f"t.din {CACHE} --buffer N", f"t.din {CACHE.replace('128', 'N')}",
                 "t.din -l1-dsize 128 -l1-dbsize N"),
    "profile": (f"{CACHE.replace('128', 'N')} true", f"{CACHE} --rows N true"),
    "second-level": (f"t.din {CACHE.replace('128', 'N')}",),
    "sweep-parallel": (f"N t.din {SPACE}", f"2 t.din {SPACE.replace('64', 'N')}",
                       f"--pages N {SPACE}"),
    "three-c": (f"t.din {SPACE.replace('64', 'N')}",),
    "trace": ("--skip N -o out true", "--count N -o out true"),
    "warm": (f"N t.din {SPACE}", f"9 t.din {SPACE.replace('64', 'N')}"),
}
# the same where INPUT is a file that is not there, or is no trace
NAMES = {
    **{tool: " ".join(words) for tool, words in OVER_A_TRACE.items()}, "best": "INPUT",
    "cluster/submit": f"run 2 INPUT {SPACE}", "lab/grade": "INPUT", "lab/grade-class": "INPUT",
    "lab/lab-transpose": "INPUT", "lab/replay": "-s 1 -E 2 -b 4 -t INPUT", "plot": "INPUT t.svg",
    "profile": f"{CACHE} ./INPUT", "to-din": "lackey INPUT", "trace": "-o out ./INPUT",
}
WILD = b"a\x1b[31m", b"a\xc2\x9b2J", b"a\x7f", b"a\nb", b"a\xff", b"'a'", b"\xc3\xa9"
STEERS = re.compile("[\0-\x09\x0b-\x1f\x7f-\x9f]")  # but the end of a line


class Unexpected(base.ToolTest):
    takes_long = True

    def setUp(self):
        super().setUp()
        self.write("t.din", "".join(f"0 {16 * number:x}\n" for number in range(40)))
        self.write("t.csv", "16,1,1,16,5,5,4\n16,1,2,32,6,4,2\n")
        self.write("t.c", "int x;\n")
        self.env = self.stand_in("sbatch", "echo 1")

    def lines_of(self, name, words, **env):
        """The lines that a tool writes to standard error, none of which is of a traceback."""
        ran = self.run_command(TOOLS / name, *words, env={**self.env, **env}, seconds=60)
        told = ran.stderr.decode()  # which is UTF-8 throughout
        self.assertNotIn("Traceback", told)
        self.assertNotRegex(told, STEERS)
        self.assertLess(ran.returncode, 128, told)
        return told.splitlines(), ran

    def test_long_numbers(self):
        for name, several in NUMBERS.items():
            for line in several:
                with self.subTest(tool=name, words=line):
                    words = [re.sub(r"^N|(?<=\D)N", LONG, word) for word in line.split()]
                    lines, ran = self.lines_of(name, words)
                    self.assertEqual(len(lines), ran.returncode > 0, lines)

    def test_widths(self):
        """Of a terminal, for the help and for text pictures."""
        for name in NUMBERS:
            for width in "²", "-1", "", "0", LONG, "x", "1":
                with self.subTest(tool=name, width=width):
                    lines, ran = self.lines_of(name, ["--help"], COLUMNS=width)
                    self.assertEqual((lines, ran.returncode), ([], 0))
                    self.assertTrue(ran.stdout)

    def test_names(self):
        """Of a file that is not there, of one that is no trace, and of one that is badly packed.
        The program shows a line feed by its number."""
        for wild in map(os.fsdecode, WILD):
            shown = tool.visible(wild), tool.visible(wild).replace("\\n", "\\x0a")
            for name, line in NAMES.items():
                with self.subTest(tool=name, file=wild):
                    lines, ran = self.lines_of(name, line.replace("INPUT", wild).split(" "))
                    self.assertTrue(ran.returncode)
                    self.assertTrue(any(one in line for line in lines for one in shown), lines)
        for wild in map(os.fsdecode, WILD):
            self.write(f"{wild}.gz", "no")
            self.write(wild, "no \x1b[31m\x9b\x7f\n")
            for name, line in NAMES.items():
                for file in wild, f"{wild}.gz":
                    with self.subTest(tool=name, file=file):
                        self.lines_of(name, line.replace("INPUT", file).split(" "))


class Large(base.ToolTest):
    """Time is linear in the rows of a table and in the seeds of a case: four times as many take at
    most six times as long, where what is quadratic takes sixteen. The least of some runs counts,
    since a machine may have two speeds."""

    measures = True
    RUNS = 6
    COLUMNS = ("l1-usets,l1-ubsize,l1-uassoc,l1-urepl,seed,l1-u-references,l1-u-misses,"
               "l1-u-percent,bypassed\n")

    def seconds(self, *words):
        """The processor's time, which others on the machine have little part in."""
        before = os.times().children_user
        self.assertTrue(self.good(self.run_tool(*words)))
        return os.times().children_user - before

    def judge(self, write, few, *runs):
        for number in few, 4 * few:
            self.write(f"t{number}.csv", write(number))
        for name, *words in runs:
            with self.subTest(name, words=words):
                less = more = math.inf
                for _ in range(self.RUNS):
                    less = min(less, self.seconds(name, f"t{few}.csv", *words))
                    more = min(more, self.seconds(name, f"t{4 * few}.csv", *words))
                    if more < 6 * less:
                        break
                self.assertLess(more, 6 * less)

    def test_seeds(self):
        def seeds(number):
            return self.COLUMNS + "".join(f"64,16,2,r,{seed},9999,{1000 + seed % 99},10.000,0\n"
                                          for seed in range(number))
        self.judge(seeds, 25000, ("best",), ("best", "--below", "90"), ("plot", "-"))

    def test_cases(self):
        def cases(number):
            return self.COLUMNS + "".join(
                f"{1 << at % 8},16,{1 + at // 8},l,1,9999,{9000 - at % 8999},10.000,0\n"
                for at in range(number))
        self.judge(cases, 10000, ("best",), ("best", "--front"), ("plot", "-"),
                   ("plot", "-", "--only", "pareto"))

    def test_caches(self):
        def caches(number):
            return "".join(f"16,{1 << at % 8},{1 + at // 8},{16 * (1 << at % 8) * (1 + at // 8)},"
                           f"{1000 + at % 8999},{9000 - at % 8999},0\n" for at in range(number))
        self.judge(caches, 20000, ("best",), ("best", "--miss-cost", "80+2/16"),
                   ("plot", "-"))
