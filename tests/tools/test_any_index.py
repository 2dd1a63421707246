"""Caches of any number of sets, and with any index function."""

import random

import base
from lib import table
from reading_base import SORT, Reading

WORD = (1 << 64) - 1


def parity(number):
    bit = 0
    while number:
        bit, number = bit ^ (number & 1), number >> 1
    return bit


def mixed(number):
    """The last step of MurmurHash3 for 128 bits, as its author gives it (fmix64)."""
    number ^= number >> 33
    number = number * 0xff51afd7ed558ccd & WORD
    number ^= number >> 33
    number = number * 0xc4ceb9fe1a85ec53 & WORD
    return number ^ number >> 33


# an index function as the tool is given it, and as the tests know it
FUNCTIONS = {
    "block % sets": lambda block, sets, bsize: block % sets,
    "block": lambda block, sets, bsize: block,
    "(block ^ block // sets ^ (block >> 7)) % sets":
        lambda block, sets, bsize: (block ^ block // sets ^ block // 128) % sets,
    "parity(address & 0x5f575440) * (sets // 2) + block % (sets // 2)":
        lambda block, sets, bsize: parity(block * bsize & 0x5f575440) * (sets // 2)
        + block % (sets // 2),
    "mix(address >> 12) % sets": lambda block, sets, bsize: mixed(block * bsize >> 12) % sets,
    "0 if block < 9 or not bsize == 4 else 1":
        lambda block, sets, bsize: int(block >= 9 and bsize == 4),
}


class Indexed(base.Lru):
    """A cache whose sets are chosen by a function."""

    def __init__(self, bsize, sets, assoc, function):
        super().__init__(bsize, sets, assoc)
        self.function = function

    def place(self, block):
        return self.function(block, len(self.sets), self.bsize)


class AnyIndex(Reading, base.ToolTest):
    TOOL = "any-index"
    OPTIONS = "--bsize 16 --sets 12 --assoc 1-4".split()

    def judge(self, text, bsize, sets, ways, name="block % sets", format="d", kind="u"):
        """Compares each row with a list for each set."""
        words = ["--bsize", bsize, "--sets", sets, "--assoc", f"1-{ways}", "--format", format,
                 "--kind", kind, *(["--index", name] if name != "block % sets" else [])]
        answer = self.good(self.run_tool("any-index", "-", *words, stdin=text))
        header, *rows = answer.splitlines()
        self.assertEqual((header, len(rows)), (table.HEADER, ways))
        events = base.references(text, format, kind)
        for assoc, row in enumerate(rows, 1):
            cache = Indexed(bsize, sets, assoc, FUNCTIONS[name])
            for event in events:
                cache.take(event)
            shape = bsize, sets, assoc, bsize * sets * assoc
            self.assertEqual(row, ",".join(map(str, (*shape, *cache.counts))), name)

    def test_numbers_of_sets(self):
        for sets in (1, 2, 3, 12, 16, 40, 1000):
            self.judge(SORT, 16, sets, 4)
        self.judge(SORT, 1 << 20, 3, 2)

    def test_formats_and_kinds(self):
        text = (base.EXAMPLES / "transpose.lackey").read_bytes()
        for kind in "udi":
            self.judge(text, 32, 24, 3, format="l", kind=kind)
            self.judge(SORT, 32, 7, 3, kind=kind)

    def test_functions(self):
        drawn = random.Random(5)
        lines = [f"{drawn.choice('012')} {drawn.randrange(1 << drawn.choice((8, 12, 20))):x}\n"
                 for _ in range(3000)]
        lines = [line + "4 0\n" * (drawn.random() < 0.005) for line in lines]
        text = "".join(lines).encode()
        for name in FUNCTIONS:
            sets = 1 << 18 if name == "block" else 40
            self.judge(text, 4, sets, 4, name)
        self.judge(SORT, 16, 40, 20, "mix(address >> 12) % sets")

    def test_a_power_of_two_is_the_sweep(self):
        for sets in (1, 4, 64):
            words = f"--bsize 16 --sets {sets} --assoc 1-5".split()
            swept = self.sweep(*words, "--size", "0-1m", "-t", "/dev/stdin", stdin=SORT)
            self.assertEqual(self.good(self.run_tool("any-index", "-", *words, stdin=SORT)), swept)

    def test_a_large_cache(self):
        """40,960 sets of 20 ways: 41 blocks of one set, and one each of others."""
        places = [number * 40960 for number in range(21)] * 2 + [*range(1, 9)]
        text = "".join(f"0 {64 * place:x}\n" for place in places).encode()
        words = "--bsize 64 --sets 40960 --assoc 20-21".split()
        answer = self.good(self.run_tool("any-index", "-", *words, stdin=text))
        self.assertEqual(answer.splitlines()[1:], ["64,40960,20,52428800,0,50,22",
                                                   "64,40960,21,55050240,21,29,0"])

    def test_addresses_at_both_ends(self):
        text = b"0 0\n0 ffffffffffffffff\n0 0\n0 fffffffffffffff0\n"
        self.judge(text, 16, 7, 2)
        self.judge(text, 1, 1 << 20, 2, "mix(address >> 12) % sets")

    def test_wrong_functions(self):
        self.write("trace", SORT)
        for text, status, told in (
            ("block %", 2, "is no expression"), ("", 2, "is no expression"),
            ("blocks", 2, "has blocks that"), ("__import__", 2, "has __import__ that"),
            ("block.real", 2, "has real that"), ("[block][0]", 2, "has a sign that"),
            ("'0'", 2, "has a sign that"), ("(block := 3)", 2, "has a sign that"),
            ("block / 2", 1, "block 0x40171: 131256.5 is no whole number"),
            ("block, 3", 1, "(262513, 3) is no whole number"), ("block % 0", 1, "block 0x40171: "),
            ("block", 1, "is in set 262513, and there are 12"),
            ("0 - block", 1, "is in set -262513, and there are 12"),
            ("parity", 1, "is no whole number"), ("(" * 300 + ")" * 300, 2, "is no expression"),
        ):
            ran = self.run_tool("any-index", "trace", *self.OPTIONS, f"--index={text}")
            self.refused(ran, status, "any-index: --index: ", told)

    def test_wrong_arguments(self):
        for words, told in (
            ("--bsize 16 --sets 12", "required: --assoc"), ("--sets 12 --assoc 1", "--bsize"),
            ("--bsize 17 --sets 12 --assoc 1", "--bsize: '17' is no power of two"),
            ("--bsize 16 --sets 0 --assoc 1", "--sets: '0' is no number from 1"),
            ("--bsize 16 --sets 1048577 --assoc 1", "is no number from 1 to 1048576"),
            ("--bsize 16 --sets 1k --assoc 1", "--sets: '1k'"),
            ("--bsize 16 --sets 12 --assoc 0", "out of limits"),
            ("--bsize 16 --sets 12 --assoc x", "--assoc: bad value"),
            ("--bsize 16 --sets 12 --assoc 1 --kind x", "--kind"),
            ("--bsize 16 --sets 12 --assoc 1 -t x", "-t"),
        ):
            self.refused(self.run_tool("any-index", "-", *words.split()), 2, told)

    def test_plot_and_best_take_it(self):
        self.write("rows.csv", self.good(self.read("-", stdin=SORT)))
        row, = self.good(self.run_tool("best", "rows.csv")).splitlines()[1:]
        self.assertEqual(row.split(",")[:3], ["16", "12", "4"])
        self.assertIn("Miss ratio", self.good(self.run_tool("plot", "rows.csv", "-")))
