"""Misses by line of the source, function and object."""

import collections
import csv
import os
import random
import re

import base
import reading_base
import trace_base
from base import cache
from test_three_c import random_trace

SORT = base.EXAMPLES / "sort.din"
COUNTS = ("references", "misses", "compulsory", "capacity", "conflict")
# lines by label, address, and address in capitals
DIN_FORMS = (" {} {}\n", "{}\t{}\n", "{} {}\r\n", "{} {} 8\n", "{} 0x{}\n", "{0} 0X{2}\n",
             "{}  {} \n", "{} {:0>16}\n", "\n{} {}\n", "3 0\n{} {}\n", " \t\n{} {}\n")
LACKEY_FORMS = "{:>2} {},4\n", "  {} \t0{},123456789 x\n", "== a message\n{} {},1\r\n"
CACHE = "-l1-dsize 256 -l1-dbsize 16"
ARRAYS = ("first", "second", "third")  # each the name of a function of own_arrays.c, with its array


def built(source, *flags, compiler="cc"):
    return trace_base.program_of(source, "-g", *flags, compiler=compiler)


def walks():
    flags = "-static", "-nostdlib", "-fno-pie", "-fno-stack-protector"
    return built(base.TOP / "tests/walks.c", *flags)


def innermost(row):
    line = (row["inlined"] or row["line"]).split()[-1]
    return line if re.search(r":\d+$", line) else "?"


class ByLineTest(base.ToolTest):
    def rows(self, trace, *arguments, **given):
        """The table's rows, with their counts as numbers."""
        answer = self.good(self.run_tool("by-line", trace, *arguments, **given))
        rows = csv.DictReader(answer.splitlines())
        return [row | {key: int(row[key]) for key in COUNTS if row.get(key)} for row in rows]

    def values(self, rows, *names):
        return [tuple(row[name] for name in names) for row in rows]

    def references(self, rows, name="object"):
        """How many references each object has."""
        return dict(self.values(rows, name, "references"))

    def by_source(self, source, *arguments, **given):
        """The counts of the lines of a source, as they are for callgrind_annotate."""
        self.good(self.run_tool("by-line", *arguments, "--callgrind", "counted", **given))
        found, is_in = {}, False
        for line in (self.folder / "counted").read_text().splitlines():
            if re.match("f[lie]=", line):
                is_in = line.endswith(f"/{source}")
            elif is_in and line[:1].isdigit():
                number, *counts = map(int, line.split())
                found[number] = list(map(sum, zip(counts, found.get(number, [0] * 4))))
        return found

    def sums(self, rows):
        return [sum(row[name] for row in rows) for name in COUNTS]


class Totals(ByLineTest):
    """All rows together have the numbers of din and of three-c."""

    def report(self, trace, options, place):
        text = self.good(self.run_command(base.PROGRAM, "din", *options.split(), "-t", trace))
        line = next(line for line in text.splitlines() if line.startswith(place))
        numbers = {name: int(number) for name, number in re.findall(r"(\S+)=(\d+)", line)}
        columns = "fetches reads writes", "fetch-misses read-misses write-misses"
        return [sum(numbers[name] for name in names.split()) for names in columns]

    def traces(self):
        return SORT, self.write("random.din", random_trace(6000, True))

    def test_of_din(self):
        data = f"{CACHE} -l1-dassoc 2"
        split = f"{data} -l1-isize 128 -l1-ibsize 16 -l2-usize 1k -l2-ubsize 32 -l2-uassoc 4"
        for trace in self.traces():
            for place, options in (
                ("l1-d", data),
                ("l1-d", f"{data} -l1-drepl f -l1-dwalloc n -l1-dwback n"),
                ("l1-d", f"{data} -l1-drepl=r --seed 7"),
                ("l1-u", "-l1-usize 256 -l1-ubsize 16 -l1-uassoc 16"),
                ("l1-u", "-l1-usets=4 -l1-ubsize 16 -l1-uassoc 3 -l1-urepl f"),
                ("l1-d", "-l1-dsets 4 -l1-dbsize 16 -l1-dassoc 3 -l2-usets 8 -l2-ubsize 32"),
                ("l1-i", split),
                ("l2-u", split),
            ):
                with self.subTest(place=place, options=options):
                    rows = self.rows(trace, "--at", place, *options.split())
                    self.assertEqual(self.sums(rows)[:2], self.report(trace, options, place))

    def test_of_three_c(self):
        for trace in self.traces():
            for sets, assoc in ((8, 2), (1, 16), (16, 1), (4, 3), (1, 12)):
                swept = f"--kind d --bsize 16 --sets {sets} --assoc {assoc} --size 0-1k".split()
                table = self.good(self.run_tool("three-c", trace, *swept))
                wanted = table.splitlines()[1].split(",")
                given = f"-l1-dsets {sets} -l1-dbsize 16 -l1-dassoc {assoc}".split()
                caches = [given]
                if sets * assoc == 16:
                    caches += [cache(256, 16, "-l1-dassoc", assoc), [*given, "-l1-dsize=256"]]
                for words in caches:
                    rows = self.rows(trace, *words)
                    self.assertEqual(self.sums(rows)[1:], [int(wanted[at]) for at in (5, 7, 8, 9)])


@base.needs("binutils", "gcc", "llvm")
class Rows(ByLineTest):
    """Each row by itself, of a random trace with the addresses of a program."""

    CACHE = (32, 4, 2)
    OPTIONS = cache("256", "32", "-l1-dassoc", "2", "--by", "line,object")

    def setUp(self):
        super().setUp()
        drawn, symbols = random.Random(9), trace_base.symbols_of(walks())
        start, size = symbols["_start"]
        counters = tuple(start + drawn.randrange(size) for _ in range(12))
        self.lines = trace_base.lines_of(walks(), counters)
        places = {name: symbols[name][0] for name in ("table", "next", "state")}
        places |= {"(heap)": 0x5000000, "(stack)": 0x1FFE000000}
        self.events, text = [], []  # of each reference its line, its object and its address
        for _ in range(4000):
            counter, name = drawn.choice(counters), drawn.choice(list(places))
            address = places[name] + drawn.randrange(0, 1024 if name != "state" else 8)
            self.events.append((self.lines[counter], name, address))
            text += [f"2 {counter:x}", f"{drawn.choice('01')} {address:x}"]
        self.trace = self.write("t.din", "\n".join(text) + "\n")

    def in_forms(self, labels, *forms):
        """The trace, with each line in a form for its label, its address and that in capitals."""
        drawn, lines = random.Random(3), map(str.split, self.trace.read_text().splitlines())
        return "".join(drawn.choice(forms).format(labels[int(label)], address, address.upper())
                       for label, address in lines)

    def test_other_forms_of_lines(self):
        din = self.in_forms("012", *["{} {}\n"] * 3, *DIN_FORMS) + "0 10\n1 10\n0 10\n1 10"
        lackey = self.in_forms("LSI", *LACKEY_FORMS) + "  M 10,4\n M 10,4\n"
        lackey, by = re.sub(r"(?m)^ I ", "I  ", lackey), ("--by", "line,object")
        caches = (cache(256, 32, *by, place=place) for place in ("l1-i", "l1-u"))
        for options in (self.OPTIONS, *caches):
            given = "-", "--program", walks(), *options
            text = self.trace.read_text() + "0 10\n1 10\n" * 2
            expected = self.rows(*given, stdin=text.encode())
            for text, more in ((din, ()), (lackey, ("-informat", "l"))):
                self.assertEqual(self.rows(*given, *more, stdin=text.encode()), expected)

    def key(self, row, before=""):
        return (row[f"{before}inlined"] or row[f"{before}line"]).split()[-1], row[f"{before}object"]

    def expected(self):
        """By line and object the counts, and by two of these the misses after an eviction."""
        own, full, seen, by = base.Lru(*self.CACHE), base.Lru(32, 1, 8), set(), {}
        counts, pairs = collections.defaultdict(lambda: [0] * 5), collections.Counter()
        for line, name, address in self.events:
            block, numbers = address // 32, counts[line, name]
            before = {block for held in own.sets for block in held}
            missed, is_first = own.access(address) != "hit", block not in seen
            capacity = full.access(address) != "hit" and not is_first
            for evicted in before - {block for held in own.sets for block in held}:
                by[evicted] = line, name
            if missed and not is_first:
                pairs[(line, name), by[block]] += 1
            seen.add(block)
            for at, one in enumerate((1, missed, is_first, capacity, missed - is_first - capacity)):
                numbers[at] += one
        return dict(counts), pairs

    def test_counts(self):
        rows = self.rows(self.trace, "--program", walks(), *self.OPTIONS)
        got = {self.key(row): [row[name] for name in COUNTS] for row in rows}
        self.assertEqual(got, self.expected()[0])
        misses = [row["misses"] for row in rows]
        self.assertEqual(misses, sorted(misses, reverse=True))

    def test_who_evicted(self):
        rows = self.rows(self.trace, "--program", walks(), "--evicted-by", *self.OPTIONS)
        got = {(self.key(row), self.key(row, "evicted-by-")): row["misses"] for row in rows}
        self.assertEqual(got, self.expected()[1])

    def test_a_base_and_a_map(self):
        plain = self.rows(self.trace, "--program", walks(), *self.OPTIONS)
        text = self.trace.read_text()
        moved = self.write("moved.din", re.sub(
            r" (\S+)", lambda found: f" {int(found[1], 16) + 0x10000000000:x}", text))
        options = ["0" if word == "(stack)" else word for word in self.OPTIONS]
        based = self.rows(moved, "--program", walks(), "--base", "10000000000", *options)
        wanted = {(line, name.replace("stack", "heap")) for line, name in map(self.key, plain)}
        self.assertEqual({self.key(row) for row in based}, wanted)
        self.write("map", (
            f"10000400000-10000401000 r--p 00000000 00:00 0 {walks()}\n"
            "1001ffe000000-1001ffe100000 rw-p 00000000 00:00 0 [stack]\n"
            "11ffe000000-11ffe100000 rw-p 00000000 00:00 0 [stack]\n"))
        mapped = self.rows(moved, "--map", "map", *options)
        self.assertEqual([self.key(row) for row in mapped], [self.key(row) for row in plain])


@base.needs("binutils", "g++", "gcc", "llvm", "qemu-user", "rustc", "valgrind")
class Cachegrind(ByLineTest):
    """Line by line as Valgrind's Cachegrind has it: by the innermost lines, with '?' for none. Of
    two lines of one number that follow each other in the table of lines, Cachegrind 3.19 takes the
    second for one of the first one's file: smallsort.rs:547 of Rust 1.95 counts as ptr/mod.rs:547.
    There by-line has what the table has; no line that is compared here is such a one."""

    def by_cachegrind(self, program, *events, caches=()):
        """Of each line the sums of these events."""
        out = self.folder / "out"
        flags = "--tool=cachegrind", "--cache-sim=yes", f"--cachegrind-out-file={out}"
        self.run_command("valgrind", *flags, *caches, program)
        found, file, names = collections.defaultdict(lambda: [0] * len(events)), "", []
        for line in out.read_text().splitlines():
            word, _, rest = line.partition(" ")
            if word == "events:":
                names = rest.split()
            elif word[:3] == "fl=":
                file = os.path.basename(line[3:])
            elif word.isdigit():
                numbers = dict(zip(names, map(int, rest.split())))
                counts = found[f"{file}:{word}" if word != "0" else "?"]
                for at, summed in enumerate(events):
                    counts[at] += sum(numbers[event] for event in summed.split())
        return {line: counts for line, counts in found.items() if counts[0]}

    def by_innermost(self, columns, *arguments):
        """The table's sums by the innermost line."""
        found = collections.defaultdict(lambda: [0] * len(columns))
        for row in self.rows(*arguments):
            line = innermost(row)
            found[line] = [one + row[column] for one, column in zip(found[line], columns)]
        return dict(found)

    def lackey(self, program):
        """Its trace by Valgrind, in which a modify is a read, as it is for Cachegrind."""
        trace = self.folder / "lackey"
        flags = "--tool=lackey", "--trace-mem=yes", f"--log-file={trace}"
        self.run_command("valgrind", *flags, program)
        trace.write_text(re.sub(r"(?m)^ M", " L", trace.read_text()))
        return trace, "--program", program, "--informat", "l"

    def test_misses(self):
        trace = self.lackey(walks())
        for size, ways, block in ((512, 1, 32), (1024, 4, 32), (4096, 4, 64), (32768, 8, 64)):
            caches = [f"--D1={size},{ways},{block}", "--I1=32768,8,64", "--LL=8388608,16,64"]
            wanted = self.by_cachegrind(walks(), "Dr Dw", "D1mr D1mw", caches=caches)
            given = *trace, *cache(size, block, "-l1-dassoc", ways)
            self.assertEqual(self.by_innermost(("references", "misses"), *given), wanted)

    def test_references(self):
        """In all lines of static programs."""
        shapes = trace_base.TRACED / "shapes.cc"
        sources = [(base.EXAMPLES / "sort.c", "-O2", "gcc")]
        sources += [(shapes, level, "g++") for level in ("-O0", "-O2", "-O3")]
        for source, level, compiler in sources:
            with self.subTest(source.name, level=level):
                program = built(source, level, "-static", compiler=compiler)
                given = *self.lackey(program), *cache(64, 64, place="l1-u")
                got = self.by_innermost(["references"], *given)
                self.assertEqual(got, self.by_cachegrind(program, "Ir Dr Dw"))

    def test_fetches(self):
        """In the own lines of programs that are moved where they are loaded, and of a library."""
        library = trace_base.TRACED / "library.c"
        flags = "-g", "-O1", "-shared", "-fPIC", "-o", "libown.so"
        self.good(self.run_command("gcc", *flags, library))
        for compiler, source, *flags in (
            ("gcc", base.EXAMPLES / "transpose.c", "-fpie", "-pie", "-O1"),
            ("gcc", library, "-DUSER", "-O1", "-L.", "-Wl,-rpath,.", "-lown"),
            ("g++", trace_base.TRACED / "shapes.cc", "-fpie", "-pie", "-O1"),
            ("rustc", trace_base.TRACED / "words.rs", "-O"),
        ):
            with self.subTest(source.name):
                self.good(self.run_command(compiler, source, *flags, "-g", "-o", "program"))
                self.run_tool("trace", "--kind", "i", "--map", "map", "-o", "t.din", "./program")
                given = "t.din", "--map", "map", *cache(64, 64, place="l1-i")
                got = self.by_innermost(["references"], *given)
                got, wanted = (
                    {line: n for line, n in found.items() if line.startswith(f"{source.name}:")}
                    for found in (got, self.by_cachegrind("./program", "Ir")))
                self.assertEqual(got, wanted)


@base.needs("binutils", "gcc", "g++", "llvm", "qemu-user")
class Programs(ByLineTest):
    """Programs at addresses of their own, traced with a map."""

    def traced(self, program, *arguments, **given):
        self.run_tool("trace", "--map", "map", "-o", "t.din", program, *arguments, **given)
        return "t.din", "--map", "map"

    def test_transposition(self):
        source = base.EXAMPLES / "transpose.c"
        program = built(source, "-fpie", "-pie")
        # of the cookbook's three C's
        known = ([], 12, 1180, 896, 28), (["blocks"], 20, 340, 0, 84)
        for more, line, misses, capacity, conflict in known:
            given = *self.traced(program, *more), *cache("1k", 32)
            rows = {innermost(row): row for row in reversed(self.rows(*given))}
            got = [rows[f"transpose.c:{line}"][name] for name in COUNTS]
            self.assertEqual(got, [2048, misses, 256, capacity, conflict])
            objects = self.references(self.rows(*given, "--by", "object"))
            self.assertEqual((objects["a"], objects["b"]), (1024, 1024))
            self.assertGreater(objects["(stack)"], 1000)
            counts = self.by_source(source.name, *given)
            self.assertEqual(counts[line], [2048, misses, 256, capacity])
            self.assertNotIn(1, counts)

    def test_data_of_a_thread_follow_its_own_fetches(self):
        self.arrays("cc")

    @base.needs(*base.CROSS)
    def test_another_machine(self):
        self.arrays("aarch64-linux-gnu-gcc")

    def arrays(self, compiler):
        """Of three threads, each with one of its own."""
        program = built(trace_base.TRACED / "own_arrays.c", "-fpie", "-pie", compiler=compiler)
        rows = self.rows(*self.traced(program), *cache("1k", 32), "--by", "function,object")
        found = sorted(row for row in self.values(rows, "function", "object", "references")
                       if row[1].endswith("_array"))
        self.assertEqual(found, [(name, f"{name}_array", 2 * 120 * 1000) for name in ARRAYS])

    def test_a_program_that_qemu_has_moved(self):
        """A map has the program's own addresses, wherever in QEMU's they lie."""
        program = built(base.EXAMPLES / "transpose.c", "-static")
        for place in ("0x200000000", "0x100000000000"):
            given = self.traced(program, env={"QEMU_GUEST_BASE": place})
            found = self.references(self.rows(*given, *cache("1k", 32), "--by", "object"))
            self.assertEqual((found["a"], found["b"]), (1024, 1024))


class Traces(reading_base.Reading, ByLineTest):
    TOOL = "by-line"
    OPTIONS = f"{CACHE} --by line,object".split()


class Faults(ByLineTest):
    def test_faults(self):
        absent, some = "No such file or directory\n", b"0 1\n"
        by = "argument --by: 'lines' is not one or more of line, function and object"
        empty = "an empty map; it is whole when the run that"
        self.write("empty.map", "")
        self.write("bad.map", "1000-2000 rw-p 00000000 00:00 0\n1000-2000 rw-p\n")
        for words, status, fault, *text in (
            ("-t x", 2, "the trace is the first argument"),
            ("--at", 2, "argument --at/--cache: expected one argument"),
            ("--at l2-u", 2, "there is no cache l2-u"),
            ("--at x", 2, "argument --at/--cache: invalid choice: 'x'"),
            ("--cache x", 2, "argument --at/--cache: invalid choice: 'x'"),
            ("--by lines", 2, by),
            ("--base 10", 2, "--base is for a --program"),
            ("--map m --program p", 2, "--map leaves nothing to --program and --base"),
            ("--callgrind - --map ./-", 2, "--callgrind and --map are one file"),
            ("--callgrind - --by site --heap ./-", 2, "--callgrind and --heap are one file"),
            ("--map none", 1, f"none: {absent}"),
            ("--map empty.map", 1, f"empty.map: {empty}", some),
            ("--map bad.map", 1, "bad.map: line 2 is none of a map\n"),
            ("--program none", 1, "none: no ELF program that can be read\n"),
        ):
            with self.subTest(words):
                ran = self.run_tool("by-line", *f"- {CACHE} {words}".split(), stdin=b"".join(text))
                self.refused(ran, status, f"by-line: {fault}")
        needed = "by-line: a trace and the options of din are needed"
        self.refused(self.run_tool("by-line", "-"), 2, needed)
        for words in cache(3, 2), [*CACHE.split(), "--", "x"]:
            self.refused(self.run_tool("by-line", "-", *words), 2, "cachesim: ")

    def test_the_number_of_a_line(self):
        """It is that in the trace, however many lines before it no cache takes."""
        given, bad = ("by-line", "-", *CACHE.split()), ("2 0x", "2 12345678901234567", "2")
        for fetches in (1, 20, 20_000, 500_000):
            start = "2 401136\n" * fetches
            for text, fault in (("7 1", "bad label"), ("2401136", "bad label"),
                                *((text, "bad address") for text in bad)):
                ran = self.run_tool(*given, stdin=f"{start}0 10\n{text}\n0 20\n".encode())
                self.refused(ran, 1, f"cachesim: line {fetches + 2}: {fault}\n")
            ran = self.run_tool(*given, stdin=f"{start}2 {'0' * 600_000}".encode())
            self.refused(ran, 1, f"cachesim: line {fetches + 1}: ")
        for text in ("I  401136,", "I  401136,1234567890", "I  12345678901234567,4", "I  401136 4"):
            ran = self.run_tool(*given, "-informat", "l", stdin=f" L 10,4\n{text}\n".encode())
            self.refused(ran, 1, "cachesim: line 2: bad ")

    def test_few_lines(self):
        """None, and a reference without a fetch."""
        self.assertEqual(self.rows("-", *cache(64, 16), stdin=b""), [])
        rows = self.rows("-", *cache(64, 16), stdin=b"0 10\n")
        self.assertEqual([row["line"] for row in rows], ["(no fetch before it)"])

    def test_half_an_answer(self):
        """Of the part in C: it is no table."""
        base.copy_tools(self.folder, "by-line")
        self.good(self.run_command(self.folder / "by-line", "--build"))
        self.executable("out/by-line", "echo cell - -1 1 1 1 0")
        ran = self.run_command(self.folder / "by-line", "-", *CACHE.split())
        self.ends(ran, 1, "by-line: the references can't be counted\n")
