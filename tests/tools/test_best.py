"""The best caches of a table."""

import csv
import os
import re

import base
from din_base import COLUMNS, POLICIES, din_rows
from lib import table

CACHES = {
    (16, 1, 4): 200, (16, 4, 1): 200, (32, 1, 2): 100,
    (16, 2, 4): 105, (32, 2, 2): 50, (64, 1, 4): 52,
    (64, 4, 1): 50, (64, 2, 4): 49, (64, 8, 1): 49,
}
TABLE = f"{table.HEADER}\n{base.rows_of(1000, CACHES)}"
# of din: the columns of a cache, those of several runs, and a table of two levels
SHAPE = "l1-usize,l1-ubsize,l1-uassoc,l1-urepl,size,l1-u-misses"
MEANS = f"{SHAPE},runs,deviation,least,greatest"
GIVEN = f"{COLUMNS}\n{din_rows(POLICIES)}"
LEVELS = ("l1-dsize,l2-usize,l1-d-references,l1-d-misses,l1-d-percent,l2-u-references,l2-u-misses,"
          "l2-u-percent,memory-reads,bypassed")


# The triples that are chosen of TABLE. Of two of 512 bytes that miss 49 times that of one way
# comes first
CHOSEN = {
    "": "64,8,1 64,2,4",
    # 50 misses are the fewest of up to 256 bytes; 128 bytes are the least size that has them
    "--up-to 256": "32,2,2", "--up-to 511": "32,2,2", "--up-to 64": "32,1,2",
    # 49 and so many per cent more: 49.98, 50.0045, 99.47, 100.0041
    "--within 0": "64,8,1 64,2,4", "--within 2": "64,8,1 64,2,4", "--within 2.05": "32,2,2",
    "--within 103": "32,2,2", "--within 104.09": "32,1,2",
    "--within 1000": "32,1,2 16,4,1 16,1,4",
    # 50 are the fewest of up to 256 bytes; twice as many, 100 per cent more, is within that
    "--within 100 --up-to 256": "32,1,2", "--within 99.99 --up-to 256": "32,2,2",
    # of 1,000 references: 50 misses are 5 per cent, which is at most that; 200 misses are 800 hits
    "--below 100": "32,1,2 16,4,1 16,1,4", "--below 20": "32,1,2 16,4,1 16,1,4",
    "--below 19.9": "32,1,2", "--below 9.9999": "32,2,2", "--below 5": "32,2,2",
    "--below 4.9": "64,8,1 64,2,4", "--below 5 --up-to 128": "32,2,2",
    "--below 80 --measure hits": "16,4,1 16,1,4",
    "--rows 4": "64,8,1 64,2,4 32,2,2 64,4,1", "--rows 2 --up-to 64": "32,1,2 16,4,1",
    "--front": "32,1,2 32,2,2 64,8,1", "--front --up-to 128": "32,1,2 32,2,2",
}
# the same of other rows. 47.7 per cent more than 54,305,000 are 80,208,485, though not in binary
# fractions; one miss more in ten million is too many; one of three is a third
FAR = base.rows_of(10 ** 8, {(32, 1, 1): 80208486, (32, 2, 1): 80208485, (32, 4, 1): 54305000})
NEAR = base.rows_of(10 ** 8, {(32, 1, 1): 10 ** 7 + 1, (32, 2, 1): 10 ** 7})
THIRD = base.rows_of(3, {(16, 1, 1): 1})
OF_ROWS = (
    (FAR, "--within 47.6999", "32,4,1"), (FAR, "--within 47.7", "32,2,1"), (NEAR, "", "32,2,1"),
    (NEAR, "--within 0.00001", "32,1,1"), ("16,1,1,16,0,0,0\n", "--below 0", "16,1,1"),
    (THIRD, "--below 33.33333333333333333334", "16,1,1"),
    # alike in size and misses: the fewest ways, and then the smallest blocks
    (base.rows_of(1000, {(16, 2, 2): 9, (32, 2, 1): 9, (64, 1, 1): 9}), "", "32,2,1 64,1,1 16,2,2"),
    (base.rows_of(1000, {(16, 2, 2): 9, (64, 1, 1): 9, (32, 2, 1): 9}), "--front", "32,2,1"),
)


class Best(base.ToolTest):
    def setUp(self):
        super().setUp()
        (self.folder / "table.csv").write_text(TABLE)

    def best(self, *arguments, stdin=b""):
        """The triples of the rows that are chosen, and what they have in per cent."""
        text = self.good(self.run_tool("best", *arguments, stdin=stdin))
        self.assertEqual(text.split("\n")[0], table.HEADER + ",percent")
        rows = [*csv.DictReader(text.splitlines())]
        chosen = " ".join(f"{row['bsize']},{row['sets']},{row['assoc']}" for row in rows)
        return chosen, " ".join(row["percent"] for row in rows)

    def test_what_is_chosen(self):
        for words, caches in CHOSEN.items():
            self.assertEqual(self.best("table.csv", *words.split())[0], caches, words)
        for rows, words, caches in OF_ROWS:
            got = self.best("-", *words.split(), stdin=rows.encode())[0]
            self.assertEqual(got, caches, words)
        front = self.run_tool("best", "table.csv", "--front").stdout
        self.assertEqual(self.best("-", "--up-to", "511", stdin=front)[0], "32,2,2")

    def test_per_cent(self):
        percent = self.best("table.csv", "--rows", "100")[1]
        self.assertEqual(percent, "4.900 4.900 5.000 5.000 5.200 10.000 10.500 20.000 20.000")
        self.assertEqual(self.best("-", stdin=b"16,1,1,16,0,0,0\n")[1], "0.000")

    def test_nothing_below(self):
        for words, said, rows in (
            ("4.89", "has at most 4.89 per cent misses; the least is 4.9", TABLE),
            ("5 --up-to 64", "of at most 64 bytes has at most 5 per cent misses; the least is 10",
             TABLE),
            ("0 --measure evictions", "has at most 0 per cent evictions; the least is 4.1", TABLE),
            ("33.33333333333333333333", "has at most 33.3333 per cent misses; the least is 33.3333",
             THIRD),
        ):
            ran = self.run_tool("best", "-", "--below", *words.split(), stdin=rows.encode())
            self.refused(ran, 1, f"best: -: no cache {said}\n")

    def test_names(self):
        os.rename(self.folder / "table.csv", self.folder / "-a table.csv")
        behind = self.best("--front", "--", "-a table.csv")
        self.assertEqual(self.best("./-a table.csv", "--front"), behind)
        link = self.folder / "cachesim-best"
        link.symlink_to(base.TOOLS / "best")
        ran = self.run_command(link, "none.csv")
        self.refused(ran, 1, "cachesim-best: none.csv: No such file or directory\n")

    def test_what_is_refused(self):
        several = b"16,1,1,16,2,1,0\n16,1,2,32,2,2,0\n"
        for stdin, words, status, fault in (
            (b"", "-", 1, "best: standard input: a table without a row\n"),
            (b"\xff\xfe\n", "-", 1, "best: standard input: line 1: no row of a sweep's table\n"),
            (several, "-", 1, "best: -: rows of several traces: they count different numbers"),
            (b"", "table.csv --up-to 63", 1, "best: table.csv: no cache of at most 63 bytes\n"),
            (b"", ".", 1, "best: .: Is a directory\n"),
            (b"", "", 2, "required: TABLE"),
            (b"", "table.csv --within -1", 2, "--within"),
            (b"", "table.csv --within nan", 2, "'nan' is no number of per cent"),
            (b"", "table.csv --within 1 --front", 2, "not allowed with"),
            (b"", "table.csv --within 1 --below 1", 2, "not allowed with"),
            (b"", "table.csv --below 1%", 2, "'1%' is no number of per cent"),
            (b"", "table.csv --rows 0", 2, "'0' is no number above 0"),
            (b"", "table.csv --up-to 1x", 2, "'1x' is no size"),
        ):
            env = {"PYTHONIOENCODING": "utf-8:strict"}
            ran = self.run_tool("best", *words.split(), stdin=stdin, env=env)
            self.refused(ran, status, fault)


# 30, 33 and 42 are 35 in the mean, and the deviation is the root of (25 + 4 + 49) / 2
FIRST, SECOND = "128,16,2,l,128,20,,,20,20", "128,16,2,f,128,25,,,25,25"
LAST = "128,16,2,r,128,35,3,6.245,30,42"
LRU_64, RANDOM_64 = "64,16,2,l,64,100,,,100,100", "64,16,2,r,64,150,3,30.000,120,180"
ALONE = re.sub("(?m)^(([^,]+,){4})1,", r"\1", din_rows({(64, "l"): (100,)}))
# 20 of 50 references to the second level, of 109 of the trace: 40 and 18.349 per cent
TWO = (f"{LEVELS},cycles\n64,256,100,50,50.000,50,20,40.000,20,9,90\n"
       "128,256,100,40,40.000,40,25,62.500,25,9,80\n")
NOTHING = "l1-dsize,l1-d-references,l1-d-misses,l1-d-percent,bypassed\n64,0,0,0.000,0\n"
HITS = f"{table.HEADER}\n64,1,1,64,500,500,0\n64,2,1,128,600,400,0\n"
KINDS = f"{table.HEADER},conflict\n64,1,1,64,50,50,49,7\n64,2,1,128,60,40,38,9\n"
COST = f"{table.HEADER},cost\n64,1,1,64,50,50,49,7.5\n64,2,1,128,60,40,38,4.25\n"
# a table, what is asked, and the lines of the answer, with its header or without
ANSWERS = (
    (GIVEN, "--rows 3", MEANS, FIRST, SECOND, LAST),
    (GIVEN, "--up-to 64", LRU_64),
    (GIVEN, "--up-to 64 --within 50", LRU_64, RANDOM_64),
    (GIVEN, "--front", LRU_64, FIRST),
    (GIVEN, "--measure l1-u-percent --rows 3", MEANS.replace("misses", "percent"),
     "128,16,2,l,128,2,,,2,2", "128,16,2,f,128,2.500,,,2.500,2.500",
     "128,16,2,r,128,3.500,3,0.624,3,4.200"),
    (GIVEN, "--below 3.5", f"{MEANS},percent", f"{FIRST},2.000", f"{SECOND},2.500",
     f"{LAST},3.500"),
    (GIVEN, "--below 3.4999", f"{FIRST},2.000", f"{SECOND},2.500"),
    (GIVEN, "--below 10", f"{LRU_64},10.000"),
    (COLUMNS.replace(",seed", "") + "\n" + ALONE, "", SHAPE, "64,16,2,l,64,100"),
    # the misses of the last cache, whatever stands behind them, and the size of all
    (TWO, "--rows 2", "l1-dsize,l2-usize,size,l2-u-misses", "64,256,320,20", "128,256,384,25"),
    (TWO, "--below 40", "64,256,320,20,40.000"),
    (TWO, "--below 20 --measure memory-reads", "64,256,320,20,18.349"),
    (TWO, "--below 40 --measure l1-d-misses", "128,256,384,40,40.000"),
    (TWO, "--below 41 --measure l2-u-percent", "64,256,320,40,40.000"),
    (TWO, "--below 90 --measure cycles", "64,256,320,90"),
    (NOTHING, "--below 0", "64,64,0,0.000"),
    (HITS, "--measure hits", f"{table.HEADER},percent", "64,1,1,64,500,500,0,50.000"),
    (KINDS, "--measure conflict", f"{table.HEADER},conflict,percent",
     "64,1,1,64,50,50,49,7,7.000"),
    (COST, "--measure cost --below 7.5", f"{table.HEADER},cost", "64,1,1,64,50,50,49,7.500"),
    (COST, "--measure cost --below 7.49", "64,2,1,128,60,40,38,4.250"),
)


class Measures(base.ToolTest):
    """Of tables of din, and by other measures than misses."""

    def test_answers(self):
        for text, words, *wanted in ANSWERS:
            self.write("t.csv", text)
            lines = self.good(self.run_tool("best", "t.csv", *words.split())).splitlines()
            self.assertEqual(lines[wanted[0][0].isdigit():], wanted, words)

    def test_refused(self):
        for text, words, said in (
            (GIVEN, "--below 1.9", "no cache has at most 1.9 per cent misses; the least is 2\n"),
            (TWO, "--below 39.999",
             "no cache has at most 39.999 per cent misses; the least is 40\n"),
            (COST, "--measure cost --below 4", "no cache has at most 4 cost; the least is 4.25\n"),
            (COST, "--measure x", "no column x; there are "),
        ):
            self.write("t.csv", text)
            ran = self.run_tool("best", "t.csv", *words.split())
            self.refused(ran, 1, f"best: t.csv: {said}")
