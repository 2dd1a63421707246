"""Misses by line, function and object of small traces, with numbers by hand."""

import collections
import os
import pathlib
import re

import base
import trace_base
from base import cache
from test_by_line import COUNTS, ByLineTest

# a page of the stack of a thread; all else is heap
MAP = "1000-2000 rw-p 00000000 00:00 0 [stack]\n"
ONE_LINE = ("-l1-dsize", "16", "-l1-dbsize", "16")
# what stands in line 3 of another file is a part of main, inlined in line 6
AT = "\n\n    numbers[at] = at;\n"
INLINED = """\
static int numbers[64];
static inline __attribute__((always_inline)) void set(int at) {
#include "at.h"
}
int main(void) {
    set(1);
    for (int at = 1; at < 4; at++) numbers[0] += at; return numbers[0];
}
"""
# most of what this runs without optimization is code of headers, in functions of their own
SORTED = """\
#include <algorithm>
#include "own.h"
int main() {
    int numbers[] = {3, 1, 2};
    std::sort(numbers, numbers + 3);
    return own(numbers[0]);
}
"""
OWN = """\
#pragma once
static int own(int number) {
    return number + 1;
}
"""
# data with and without a name, and of other kinds
GAPS = """\
const int known[2] = {1, 2};
__attribute__((used)) static const int kept[2] = {3, 4};
__attribute__((weak)) int weak[2];
int first[2] = {1, 2};
asm(".data\\n.zero 32");
int last[3] = {3, 4, 5};
asm(".data\\n.zero 64");
void _start(void) { }
"""


def reads(places):
    """A trace that reads from each of these places."""
    return "".join(f"0 {place:x}\n" for place in places).encode()


def fetches(places):
    """A trace that fetches from each of these places, and reads after it."""
    return "".join(f"2 {place:x}\n0 10\n" for place in places).encode()


class Hand(ByLineTest):
    def counts(self, text, *arguments):
        """The sums over all rows."""
        return self.sums(self.rows("-", *arguments, stdin=text))

    def by_object(self, text, *arguments):
        """The rows by object, with these objects of the map."""
        self.write("map", MAP)
        return self.rows("-", "--map", "map", "--by", "object", *arguments, stdin=text)


class Misses(Hand):
    def test_counts(self):
        two = cache(32, 16, "-l1-dassoc", "2")
        different = (f"0 10\n0 {0x10 + (1 << bits):x}\n0 10\n" for bits in (32, 36, 48, 60, 63))
        fifo = b"0 10\n0 20\n0 10\n0 30\n0 10\n"
        for text, options, *counts in (
            # LRU keeps block 1 where FIFO evicts it for block 3, which is no capacity miss
            (fifo, (*two, "-l1-drepl", "f"), 5, 4, 3, 0, 1),
            (fifo, (*cache(32, 16), "-l1-dassoc=2", "--l1-drepl=f"), 5, 4, 3, 0, 1),
            # two blocks share one of 65,536 sets, which are the most lines that a set may have
            (b"0 0\n0 10000\n0 0\n", cache("64k", 1), 3, 3, 2, 0, 1),
            # blocks whose addresses differ in a high bit alone
            *((text.encode(), two, 3, 2, 2, 0, 0) for text in different),
        ):
            with self.subTest(text, options=options):
                self.assertEqual(self.counts(text, *options), counts)
        given = "-", *cache("128k", 1), "--callgrind", "out"
        rows = self.rows(*given, stdin=b"0 0\n0 20000\n0 0\n")
        self.assertEqual(self.values(rows, *COUNTS), [(3, 3, 2, "", "")])
        told = (self.folder / "out").read_text().splitlines()
        self.assertEqual(told[4:6], ["events: References Misses Compulsory", "summary: 3 3 2"])

    def test_the_cache_that_counts(self):
        """Without --at it is the first of l1-d, l1-i, l1-u and l2-u."""
        first, second = cache(64, 16, place="l1-i"), cache(256, 16, place="l2-u")
        for options, *counts in (
            ((*first, *ONE_LINE, *second), 2, 2), ((*second, *first), 2, 1),
            ((*second, *cache(64, 16, place="l1-u")), 4, 3),
            ((*first, *ONE_LINE, *second, "--at", "l2-u"), 3, 3),
        ):
            self.assertEqual(self.counts(b"2 40\n0 10\n0 20\n2 40\n", *options)[:2], counts)


class Objects(Hand):
    def test_where_an_object_begins_and_ends(self):
        """Whichever of the places next to its limits comes first."""
        inside, outside = (0x1000, 0x1FFF, 0x1800), (0xFFF, 0x2000, 0x2001)
        ordered = sorted(inside + outside, key=hex)
        for places in (inside + outside, outside + inside, ordered, ordered[::-1]):
            rows = self.by_object(reads(places), *ONE_LINE)
            self.assertEqual(self.references(rows), {"(stack)": 3, "(heap)": 3}, places)

    def test_nothing_known(self):
        """A warning tells why, where a program was named."""
        self.write("map", MAP)
        no_fetch = "by-line: the trace has no fetches, so that no function is known: "
        no_program = "by-line: no fetch is in a program that was named: "
        for text, told in ((b"0 10\n", no_fetch), (b"2 10\n0 10\n", no_program)):
            for options, wanted in ((["--map", "map"], told), ([], "\\Z"),
                                    (["--map", "map", "--by", "object"], "\\Z")):
                ran = self.run_tool("by-line", "-", *options, *ONE_LINE, stdin=text)
                self.assertEqual(ran.returncode, 0)
                self.assertRegex(ran.stderr.decode(), rf"\A{wanted}")

    def test_a_second_level(self):
        """What it reads for a reference is of that one's object; a copy-back is of the object where
        its block begins. Here the stack begins in the middle of a block."""
        self.write("map", MAP.replace("1000-", "1010-"))
        levels = *cache(32, 32), *cache(128, 32, "-l2-uassoc", "4", place="l2-u"), "--at", "l2-u"
        text = b"0 1010\n1 1008\n0 2000\n0 1018\n"
        for options, *wanted in (
            ([], ("(stack)", 2, 1), ("(heap)", 2, 1)),
            (["-l1-dwback", "n"], ("(stack)", 2, 1), ("(heap)", 2, 1)),
            (["-l1-dwback", "n", "-l1-dwalloc", "n"], ("(stack)", 2, 1), ("(heap)", 2, 1)),
        ):
            rows = self.rows("-", "--map", "map", "--by", "object", *levels, *options, stdin=text)
            found = self.values(rows, "object", "references", "misses")
            self.assertEqual(sorted(found), sorted(wanted), options)

    def test_the_stack_without_a_map(self):
        """Where Valgrind and Linux have it; other threads have theirs among the libraries."""
        stack, heap = (0x1FFF000520, 0x7FFD3A2B1C40, 0x7FFFFFFFE000), (0x7F5C12345678, 0x4A1F040)
        for name, places in (("(stack)", stack), ("(heap)", heap)):
            rows = self.rows("-", "--by", "object", *ONE_LINE, stdin=reads(places))
            self.assertEqual(self.values(rows, "object", "references"), [(name, len(places))])

    def test_rows(self):
        """The most misses first, also where they are in another order as texts. Of four misses one,
        which is to the stack, is 25 per cent."""
        for text, *rows in (
            (b"0 10\n0 10\n0 1010\n0 10\n0 20\n",
             ("(heap)", 4, 3, "75.000"), ("(stack)", 1, 1, "25.000")),
            (b"0 10\n0 20\n" * 4 + b"0 10\n" + b"0 1010\n0 1020\n" * 5,
             ("(stack)", 10, 10, "52.632"), ("(heap)", 9, 9, "47.368")),
        ):
            found = self.by_object(text, *ONE_LINE)
            names = "object", "references", "misses", "share"
            self.assertEqual(self.values(found, *names), rows)

    def test_a_fetch_is_of_its_own_instruction(self):
        for place, text in (("l1-u", b"2 40\n0 10\n2 44\n"), ("l1-i", b"2 40\n2 44\n")):
            rows = self.rows("-", *cache(64, 16, "--by", "function", place=place), stdin=text)
            wanted = [("?", text.count(b"\n"))]
            self.assertEqual(self.values(rows, "function", "references"), wanted)


class Evictions(Hand):
    def evict(self, text, *wanted, more=()):
        """References to the one object miss what the other's evicted: how often, which share."""
        rows = self.by_object(text, "--evicted-by", *ONE_LINE, *more)
        got = self.values(rows, "object", "evicted-by-object", "misses", "share")
        self.assertEqual(got, list(wanted))

    def test_evictions(self):
        """The stack's block evicts that of the heap, and this the stack's. Of 12 misses two are
        compulsory, as of 11, and 10 of all 23 are 43.478 per cent. After a flush the next miss is
        compulsory, whoever had evicted the block; then it is told again."""
        flushed = b"0 10\n0 1010\n4 0\n0 10\n"
        for text, *wanted in (
            (b"0 10\n0 1010\n0 10\n0 1010\n",
             ("(heap)", "(stack)", 1, "25.000"), ("(stack)", "(heap)", 1, "25.000")),
            (b"0 1010\n0 1020\n" * 5 + b"0 1010\n" + b"0 10\n0 20\n" * 6,
             ("(heap)", "(heap)", 10, "43.478"), ("(stack)", "(stack)", 9, "39.130")),
            (flushed,), (flushed + b"0 1010\n0 10\n", ("(heap)", "(stack)", 1, "20.000")),
        ):
            self.evict(text, *wanted)

    def test_a_write_that_brings_no_block_in(self):
        """The block stays away by the same eviction, so the next miss is told if it was ever in."""
        text = b"0 10\n0 1010\n1 10\n0 10\n"
        for trace, *row in (
            (text, "(heap)", "(stack)", 2, "50.000"),
            (text + b"4 0\n1 10\n0 10\n", "(heap)", "(stack)", 2, "33.333"),
            (b"1 10\n0 1010\n0 10\n0 1010\n", "(stack)", "(heap)", 1, "25.000"),
        ):
            self.evict(trace, tuple(row), more=("-l1-dwalloc", "n"))

    def test_many_instructions(self):
        """More than 16 bits count; that of the greatest number evicts a block of the first one."""
        text = fetches(range(0, 4 << 16, 4)) + b"2 500000\n0 1010\n2 0\n0 10\n"
        self.evict(text, ("(heap)", "(stack)", 1, "33.333"))


@base.needs("binutils", "gcc", "llvm")
class Sources(Hand):
    def setUp(self):
        super().setUp()
        self.write("at.h", AT)

    def compiled(self, *words, text=None, compiler="cc"):
        """A program of sources, of which the last one may have its text written here."""
        if text:
            self.write(words[-1], text)
        self.good(self.run_command(compiler, "-g", "-O0", "-no-pie", "-o", "program", *words))
        return self.folder / "program"

    def address_of(self, program, *lines):
        """An instruction of main whose lines these are, the innermost first, as binutils tell."""
        start, size = trace_base.symbols_of(program)["main"]
        asked = "".join(f"{address:x}\n" for address in range(start, start + size)).encode()
        ran = self.run_command("addr2line", "-a", "-i", "-e", program, stdin=asked)
        told = (part.partition("\n") for part in re.split("(?m)^0x", self.good(ran))[1:])
        wanted = "".join(f".*:{line}( .*)?\n" for line in lines)
        return next(int(at, 16) for at, _, found in told if re.fullmatch(wanted, found))

    def inlined(self):
        """Options with a program, and references from two lines of it and from elsewhere."""
        program = self.compiled("inlined.c", text=INLINED)
        inner, outer = self.address_of(program, 3, 6), self.address_of(program, 7)
        text = f"2 {inner:x}\n1 1000\n1 1000\n2 {outer:x}\n0 1000\n0 2000\n2 10\n"
        return ("-", "--program", program, *cache("1k", 16, "-l1-dassoc", "64")), text

    def test_inlined(self):
        given, text = self.inlined()
        text = f"{text}0 3000\n0 4000\n0 5000\n0 6000\n".encode()
        names = "line", "inlined", "function", "references", "misses", "share"
        self.assertEqual(sorted(self.values(self.rows(*given, stdin=text), *names)), [
            ("(?)", "", "?", 4, 4, "66.667"),
            ("inlined.c:6", "at.h:3", "main", 2, 1, "16.667"),
            ("inlined.c:7", "", "main", 2, 1, "16.667"),
        ])

    @base.needs("valgrind")
    def test_callgrind(self):
        """By function and innermost line, as callgrind_annotate reads it; also of no references."""
        given, text = self.inlined()
        given, text = ("by-line", *given, "--callgrind", "out"), f"0 10\n{text}0 10\n".encode()
        table, out = self.good(self.run_tool(*given, stdin=text)), self.folder / "out"
        self.assertEqual(table, self.good(self.run_tool(*given[:-2], stdin=text)))
        self.assertEqual(out.read_text().splitlines(), [
            "# callgrind format", "version: 1", "creator: by-line of cachesim", "positions: line",
            "events: References Misses Compulsory Capacity", "summary: 6 3 3 0", "",
            f"ob={given[3]}", f"fl={self.folder}/inlined.c", "fn=main",
            f"fi={self.folder}/at.h", "3 2 1 1 0", f"fe={self.folder}/inlined.c", "7 2 1 1 0",
            "", "ob=???", "fl=???", "fn=(no fetch before it)", "0 1 1 1 0", "",
            "ob=???", "fl=???", "fn=?", "0 1 0 0 0", "", "totals: 6 3 3 0"])
        ran = self.run_command("callgrind_annotate", "--auto=yes", "--threshold=100", "out")
        lines = [line for line in self.good(ran).splitlines() if "numbers[at] = at;" in line]
        self.assertEqual(re.findall(r"(\d+) *(?:\([^)]*\))?", lines[-1])[:4], ["2", "1", "1", "0"])
        self.good(self.run_tool(*given, stdin=b""))
        empty = ["summary: 0 0 0 0", "", "totals: 0 0 0 0"]
        self.assertEqual(out.read_text().splitlines()[5:], empty)
        none, full = "No such file or directory", "No space left on device"
        for path, fault in (("none/out", none), ("/dev/full", full)):
            ran = self.run_tool(*given[:-1], path, stdin=text)
            self.refused(ran, 1, f"by-line: {path}: {fault}\n")

    def test_progress(self):
        """On a terminal the lines read so far are told, and taken away at the end."""
        words = " ".join((f"{base.TOOLS}/by-line", "-", *ONE_LINE, "--by", "object"))
        feed = "yes 0 10 | head -n 59998; for i in 1 2; do sleep 1.1; echo 0 10; done"
        ran = self.run_command("script", "-qec", f"({feed}) | {words}", "/dev/null")
        table = "object,references,misses,compulsory,capacity,conflict,share\r\n"
        table = re.escape(f"{table}(heap),60000,1,1,0,0,100.000\r\n")
        told = rf"\A(\rby-line: 0\.1 million lines )+\r\x1b\[K{table}\Z"
        self.assertRegex(ran.stdout.decode(), told)
        self.good(self.run_command("bash", "-c", f"({feed}) | {words}"))

    @base.needs("g++")
    def test_code_of_headers(self):
        """Each function of a header is in this header, also where it is not inlined."""
        self.write("own.h", OWN)
        program = self.compiled("w.cc", text=SORTED, compiler="g++")
        names = self.good(self.run_command("nm", "-C", program)).splitlines()
        of_header = re.compile(r"\w+ \w (bool )?__gnu_cxx::__ops::")
        own = [int(name.split()[0], 16) for name in names if of_header.match(name)]
        self.assertGreater(len(own), 5)
        given = "-", "--program", program, *ONE_LINE
        rows = self.rows(*given, "--by", "line", stdin=fetches(own))
        self.assertEqual({row["line"].split(":")[0] for row in rows}, {"predefined_ops.h"})
        at, = (int(name.split()[0], 16) for name in names if name.endswith(" own(int)"))
        self.assertEqual([*self.by_source("own.h", *given, stdin=fetches([at]))], [2])

    def test_variables_of_one_name(self):
        """Static ones have their file behind the name, and their address if that is the same too;
        thread-local ones are elsewhere."""
        sources = "a.c", "b.c", "in/a.c"
        for path in sources:
            (self.folder / path).parent.mkdir(exist_ok=True)
            name = re.sub(r"\W", "", path)
            self.write(path, f"static int table[4]; int *{name}(void) {{ static int only_{name}; "
                             f"table[0]++; return only_{name}++ ? &table[1] : table; }}\n")
        self.write("m.c", "__thread int own[30000];\nint main(void) { return own[0]; }\n")
        self.compiled("-fpie", "-pie", "m.c", *sources)
        start, names = 0x10000000000, self.good(self.run_command("nm", "-S", "-p", "program"))
        tables, (alone,), (own,) = (
            [int(at, 16) + start for at in re.findall(rf"(?m)^(\S+) .* {name}$", names)]
            for name in ("table", r"only_bc\S*", "own"))
        given = "-", "--program", "program", "--base", f"{start:x}", *ONE_LINE, "--by", "object"
        rows = self.rows(*given, stdin=reads([*tables, alone, own]))
        first, last = (f"table (a.c at {tables[at]:x})" for at in (0, 2))
        wanted = {first, "table (b.c)", last, "only_bc.0", "(program)"}
        self.assertEqual({row["object"] for row in rows}, wanted)

    @base.needs("g++")
    def test_one_row_for_a_function(self):
        """Also where another is inlined in it, and where the compiler has moved a part of it away.
        Of a long chain of inlined functions the middle ones are left out."""
        always = "template <typename T> inline __attribute__((always_inline)) T"
        chain = "".join(f"{always} f{n}(T *a) {{\n    return f{n - 1}(a) + a[{n}];\n}}\n"
                        for n in range(1, 11))
        self.compiled("-O2", "w.cc", compiler="g++", text=(
            f"{always} f0(T *a) {{\n    return a[0];\n}}\n{chain}"
            "__attribute__((cold, noinline)) void rare(int *a) { a[0]++; }\n"
            "__attribute__((noinline)) int all(int *a) {\n"
            "    if (a[20]) rare(a + 1), a[3]++;\n    return f10(a);\n}\n"
            "int main() {\n    static int a[21];\n    return all(a);\n}\n"))
        lines = self.good(self.run_command("objdump", "-d", "-C", "--no-show-raw-insn", "program"))
        parts = dict(re.findall(r"(?ms)^[0-9a-f]+ <([^\n]*)>:\n(.*?)\n(?:\n|\Z)", lines))
        instructions = re.compile(r"(?m)^ +([0-9a-f]+):\t(?!nop|cs nop|xchg|data16)")
        own = parts["all(int*)"] + "\n" + parts["all(int*) [clone .cold]"]
        places = [int(at, 16) for at in instructions.findall(own)]
        given, text = ("-", "--program", self.folder / "program", *ONE_LINE), fetches(places)
        rows = self.rows(*given, "--by", "function", stdin=text)
        self.assertEqual(self.values(rows, "function", "references"), [("all(int*)", len(places))])
        inlined = [row["inlined"] for row in self.rows(*given, "--by", "line", stdin=text)]
        for lines in ("32 29 26 23 .. 14 11 8 5", "32 29 26 23 20 17 14 11"):
            self.assertIn(re.sub(r"(\d+)", r"w.cc:\1", lines), inlined)

    def test_without_llvm(self):
        """Binutils' own command names lines too, and tells the parts of a loop in one line apart. A
        warning tells of it, and of absent lines."""
        program = self.compiled("inlined.c", text=INLINED)
        (self.folder / "bin").mkdir()
        for path in pathlib.Path("/usr/bin").iterdir():
            if not path.name.startswith("llvm-"):
                (self.folder / "bin" / path.name).symlink_to(path)
        text = fetches([self.address_of(program, "7 .discriminator")]) + b"0 10\n"
        given = "by-line", "-", "--program", program, *ONE_LINE
        expected = self.good(self.run_tool(*given, stdin=text))
        self.assertIn("inlined.c:7,,main,2,", expected)
        ran = self.run_tool(*given, stdin=text, env={"PATH": str(self.folder / "bin")})
        self.ends(ran, 0, "by-line: llvm-addr2line is missing: apt-get install llvm; addr2line may "
                          "name a wrong file for code of headers\n", expected)
        source = self.write("inlined.c", "int main(void);\n\n\n\n\n\n")
        self.ends(self.run_tool(*given, stdin=text), 0,
                  f"by-line: {source}: 2 references are at lines behind its end, 6: is it the file "
                  "that was compiled?\n", expected)
        self.write("inlined.c", "\n" * 6 + "the seventh line")
        self.assertEqual(self.good(self.run_tool(*given, stdin=text)), expected)

    def test_a_program_that_is_not_as_it_was(self):
        """It is told where it is newer than the map, or gone, and the table comes. It may be as old
        as the map, and other files newer, which have data of their own."""
        program = self.compiled("inlined.c", text=INLINED)
        data = self.write("data", "no program\n")
        headers = self.good(self.run_command("readelf", "-lW", program))
        start = int(re.search(r"LOAD +0x0+ 0x(\w+)", headers)[1], 16)
        map_file = self.write("map", "".join(
            f"{at:x}-{at + 4096:x} r--p 00000000 00:00 0 {path}\n"
            for at, path in ((start, program), (16, data))))
        given = ["by-line", "-", "--map", "map", *ONE_LINE]
        text = f"2 {self.address_of(program, 7):x}\n0 100\n".encode()
        for path, later in ((map_file, 0), (program, 0), (data, 10 ** 9)):
            os.utime(path, ns=(0, 10 ** 18 + later))
        table = self.good(self.run_tool(*given, stdin=text))
        self.assertIn("\ninlined.c:7,,main,1,1,", table)
        rows = self.rows(*given[1:], "--by", "object", stdin=text)
        self.assertEqual(self.references(rows), {"(data)": 1})
        os.utime(program, ns=(0, 10 ** 18 + 1))
        self.ends(self.run_tool(*given, stdin=text), 0,
                  f"by-line: {program} is newer than map: if it was built again since, its names "
                  "and lines are wrong; then trace it again\n", table)
        os.unlink(program)
        self.ends(self.run_tool(*given, stdin=text), 0,
                  f"by-line: {program} can't be read, so nothing in it has a name\n",
                  f"{table.partition(chr(10))[0]}\n(?),,?,1,1,1,0,0,100.000\n")

    def test_data_without_a_name(self):
        """Between two variables and behind the last one they are those of the program."""
        flags = "-static", "-nostdlib", "-fno-toplevel-reorder"
        program = self.compiled(*flags, "gaps.c", text=GAPS)
        symbols = trace_base.symbols_of(program)
        sections = self.good(self.run_command("readelf", "-SW", program))
        found = re.search(r" \.data +PROGBITS +(\S+) \S+ (\S+)", sections)
        start, size = (int(text, 16) for text in found.groups())
        places, wanted = range(start, start + size, 4), collections.Counter()
        for place in places:
            names = (name for name in ("first", "last") if trace_base.within(symbols[name], place))
            wanted[next(names, "(program)")] += 1
        self.assertEqual((wanted["first"], wanted["last"], wanted["(program)"] >= 24), (2, 3, True))
        given = "-", "--program", program, *ONE_LINE, "--by", "object"
        self.assertEqual(self.references(self.rows(*given, stdin=reads(places))), dict(wanted))
        others = dict.fromkeys(("known", "kept", "weak"), 1)
        text = reads(symbols[name][0] for name in others)
        self.assertEqual(self.references(self.rows(*given, stdin=text)), others)

    def test_functions_without_lines(self):
        """Without lines an instruction belongs to a function from its first byte to its last."""
        aligned = "__attribute__((aligned(64))) int"
        program = self.compiled("-g0", "plain.c", text=(
            f"{aligned} one(void) {{ return 1; }}\n{aligned} main(void) {{ return one(); }}\n"))
        (one, size), (main, _) = (trace_base.symbols_of(program)[name] for name in ("one", "main"))
        self.assertLess(one + size, main)
        no_function = "(program)", "(program)"
        for place, *wanted in (
            (one, "(one)", "one"), (one + size - 1, "(one)", "one"), (one + size, *no_function),
            (main - 1, *no_function), (main, "(main)", "main"),
        ):
            rows = self.rows("-", "--program", program, *ONE_LINE, stdin=fetches([place]))
            self.assertEqual(self.values(rows, "line", "function"), [tuple(wanted)])
