"""What is allocated on the heap, as `trace --heap` writes it, and misses by who allocated it."""

import collections
import csv
import shutil

import base
import trace_base
from lib.by_line import heap
from trace_base import TRACED, program_of, symbols_of, within

OPTIONS = "--map", "heap.map", "--heap", "heap", "-o", "heap.din"
CACHE = base.cache("1m", 8)  # a miss for each 8 bytes that are new
COUNTS = "references", "misses", "compulsory", "capacity", "conflict"
REGIONS = "(other)", "(malloc)", "(thread stacks)", "(thread-local)"
# references, what befell the heap before which of them, and how many there are to whose block
MOVES = (
    ("500000 500000 500100 500100 500000",
     "0 + 500000 20 {main}, 1 < 500000, 1 + 500100 40 {pass}, 4 > 500000",
     {"main": 2, "pass": 2, "malloc": 1}),
    # it grows where it is
    ("500000 500018 500028 500018",
     "0 + 500000 20 {main}, 1 < 500000, 1 + 500000 40 {pass}, 3 > 500000", {"main": 1, "pass": 3}),
    # others get the memory as it is freed: a part of it, one that begins there, another mapping
    ("500000 500010 500018 500000 500018",
     "0 + 500000 20 {main}, 0 < 500000, 2 + 500018 8 {pass}, 4 > 500000",
     {"main": 2, "pass": 2, "malloc": 1}),
    ("500000 500000 500000 500000",
     "0 + 500000 20 {main}, 0 < 500000, 1 + 500000 8 {pass}, 2 > 500000, 3 - 500000",
     {"main": 1, "pass": 2, "malloc": 1}),
    ("500000 500000 500000",
     "0 + 500000 20 {main}, 0 < 500000, 1 u 500000 1000, 2 > 500000", {"main": 1, "other": 2}),
    # it fails, and then it is freed, or moved
    ("500000 500000 500000",
     "0 + 500000 20 {main}, 0 < 500000, 2 - 500000", {"main": 2, "malloc": 1}),
    ("500000 500000 500000",
     "0 + 500000 20 {main}, 0 < 500000, 1 < 500000, 2 > 500000", {"main": 2, "malloc": 1}),
)
SHOWS = """\
#include <stdio.h>
extern char **environ;
int main(void) {
    printf("%zu\\n", (size_t)__builtin_frame_address(0) % 4096);
    for (char **one = environ; *one; one++) puts(*one);
    return 0;
}
"""
FORKS = """\
#include <stdlib.h>
#include <sys/wait.h>
#include <unistd.h>
int main(void) {
    volatile char *block = malloc(100);
    block[9] = 1;
    if (!fork()) {
        volatile char *own = malloc(200);
        own[1] = block[9];
        free((void *)block);
        _exit(0);
    }
    wait(NULL);
    for (int i = 0; i < 30; i++) block[i] = 1;
    block = malloc(200);
    block[2] = 1;
    return 0;
}
"""


def site(source, mark):
    """How a row calls the line that ends in a comment."""
    lines = source.read_text().split("\n")
    return f"{source.name}:{next(at for at, line in enumerate(lines, 1) if f'// {mark}' in line)}"


def blocks(*flags):
    return program_of(TRACED / "blocks.cc", "-g", *flags, compiler="g++")


class HeapTest(trace_base.TraceTest):
    def run_traced(self, program, *options, message=""):
        self.ends(self.trace(*OPTIONS, *options, program), 0, message)

    def table(self, by, *options, caches=CACHE):
        words = "heap.din", "--map", "heap.map", "--by", by, *options, *caches
        return list(csv.DictReader(self.good(self.run_tool("by-line", *words)).splitlines()))

    def sites(self, column="references", **given):
        rows = self.table("object,site", "--heap", "heap", **given)
        return {row["site"]: int(row[column]) for row in rows if row["object"] == "(heap)"}

    def lines_of(self, name="heap"):
        return (self.folder / name).read_text().splitlines()

    def counted_plainly(self):
        """How many data references are in blocks, by a replay of the file for each 8 bytes."""
        events, places, starts, found = collections.defaultdict(list), set(), {}, 0
        for line in self.lines_of():
            at, kind, *numbers = line.split()
            events[int(at, 16)].append((kind, [int(number, 16) for number in numbers]))
        for at, line in enumerate(self.lines_of("heap.din")):
            for kind, (address, *rest) in events[at]:
                if kind in "+->":
                    places -= set(starts.pop(address, ()))
                if kind == "+":
                    starts[address] = range(address // 8, (address + rest[0] + 7) // 8)
                    places |= set(starts[address])
            found += line[0] != "2" and int(line[2:], 16) // 8 in places
        return found


@base.needs("g++", "gcc", "qemu-user", "binutils", "llvm")
class Known(HeapTest):
    def test_structures(self):
        """Of each the references that the program has by its source."""
        source = TRACED / "blocks.cc"
        for flags in ((), ("-O0",), ("-O2", "-pie", "-fPIE")):
            with self.subTest(flags=flags):
                self.run_traced(blocks(*flags))
                found, misses = self.sites(), self.sites("misses")
                wanted = {"array": 300, "list": 250, "vector": 100 + 2 * 127, "first": 5,
                          "second": 7}
                self.assertEqual({mark: found[site(source, mark)] for mark in wanted}, wanted)
                # each word of points that malloc gave from new memory
                self.assertEqual(misses[site(source, "array")], 200)
                # calloc clears 3, and realloc copies 24 bytes as 4 words, and frees them, for
                # which the allocator reads a word and writes two
                resized = [found[site(source, mark)] for mark in ("small", "large")]
                self.assertEqual(resized, [3 + 3 + 4 + 3, 4 + 9])
                others = sum(found.get(name, 0) for name in REGIONS)
                self.assertEqual(sum(found.values()) - others, self.counted_plainly())

    def test_callers(self):
        """Alike at all levels of optimization, though it makes calls jumps or inlines them: each
        function that led to a block, and how often the source refers to this."""
        source = TRACED / "wrappers.cc"

        def marked(*marks):
            return " < ".join(site(source, mark) for mark in marks)

        pool = "get", "zeroed", "make"
        skips = "--skip-site", "pool::*", "--skip-site", "*wrap"
        for compiler, level in ("g++", "-O0"), ("g++", "-O2"), ("clang++", "-O2"):
            if not shutil.which(compiler):
                continue
            with self.subTest(compiler=compiler, level=level):
                self.run_traced(program_of(source, "-g", level, compiler=compiler))
                for options, wanted in (
                    (["--callers", "9"], {
                        marked(*pool, "numbers"): 300, marked(*pool, "values"): 200,
                        marked("wrap", "bytes"): 100}),
                    ([], {marked("get"): 500, marked("wrap"): 100}),
                    ([*skips, "--callers", "1"], {
                        marked("make", "numbers"): 300, marked("make", "values"): 200,
                        marked("bytes"): 100}),
                ):
                    rows = self.table("site", "--heap", "heap", *options)
                    found = {row["site"]: int(row["references"]) for row in rows
                             if source.name in row["site"]}
                    self.assertEqual(found, wanted, options)

    def test_sources_of_others(self):
        """What package managers fetch is not the program's own, and what only looks so is."""
        home = "/home/ann"
        for path in ("/rust/deps/hashbrown-0.15.2/src/raw/mod.rs", "/usr/include/c++/12/bits/map.h",
                     f"{home}/.cargo/registry/src/index.crates.io-6f17d22bba15001f/a-1/src/lib.rs",
                     f"{home}/.conan/data/fmt/1/_/_/package/2/include/fmt.h",
                     f"{home}/.conan2/p/b/fmt8/p/include/fmt.h", f"{home}/vcpkg/buildtrees/a.c",
                     f"{home}/own/vcpkg_installed/x64-linux/a.h", "/rustc/9fc6/library/a.rs"):
            self.assertTrue(heap.FOREIGN.match(path), path)
        for path in (f"{home}/own/src/main.rs", f"{home}/conan/a.c", f"{home}/rust/deps/a.rs"):
            self.assertFalse(heap.FOREIGN.match(path), path)

    def test_by_hand(self):
        """From a line's number on, which is how many references stand before it."""
        self.write("heap.din", "2 400000\n" + "0 500000\n" * 3 + "1 50000f\n" + "0 600000\n" * 4)
        self.write("heap", "2 + 500000 10 400010\n3 - 500000\n3 + 500008 8 400020\n"
                           "3 + 500000 8 400020\n6 m 600000 100\n7 s 5ff000 2000\n8 t 600000 8\n"
                           "9 end\n")
        self.write("heap.map", f"400000-401000 r-xp 0 0:0 0 {self.folder}/heap.din\n")
        self.assertEqual(self.sites(), {"(other)": 2, "(?)": 3, "(malloc)": 1, "(thread stacks)": 1,
                                        "(thread-local)": 1})

    def test_moved(self):
        """Of pvalloc, and what realloc moves, fails to give, and leaves where it is."""
        source = TRACED / "moves.c"
        program = program_of(source, "-g")
        ran = self.trace(*OPTIONS, program)
        self.assertEqual((ran.returncode, ran.stderr), (0, b""))
        found = self.sites()
        # the longer one has what was the size of the free memory behind, which realloc reads
        wanted = {"pages": 5 + 3, "kept": 3 + 7, "last": 9, "longer": 1 + 2, "mapped": 8,
                  "remapped": 11}
        self.assertEqual({mark: found[site(source, mark)] for mark in wanted}, wanted)
        # each time from before the program's own references to when realloc has returned
        data = [at for label, at in self.lines("\n".join([*self.lines_of("heap.din"), ""]))
                if label != "2"]
        steps, _ = symbols_of(program)["steps"]
        until = [data.index(steps + number) for number in range(2)]
        for mark, start, size, own in zip(("old", "large"), ran.stdout.split(), (4000, 9000),
                                          (6, 0)):
            place = int(start, 16), size
            meanwhile = sum(within(place, at) for at in data[until[0]:until[1]])
            self.assertGreater(meanwhile, own + 4000 // 32)
            behind = sum(within(place, at) for at in data[until[1]:])
            self.assertEqual(found[site(source, mark)], meanwhile + behind * (mark == "large"))

    def test_moved_by_hand(self):
        """What realloc copies from is there until it returns, or another thread gets the memory;
        if it fails, as before."""
        program = program_of(TRACED / "hands.c")
        places = {name: f"{symbols_of(program)[name][0] + 1:x}" for name in ("main", "pass")}
        for references, events, wanted in MOVES:
            with self.subTest(events):
                references = references.split()
                self.write("heap.din", "2 400000\n" + "".join(f"0 {at}\n" for at in references))
                lines = [*events.format(**places).split(", "), f"{len(references)} end"]
                self.write("heap", "".join(
                    f"{int(line[0]) + 1}{line[1:]}\n" for line in lines))  # behind the fetch
                words = "heap.din", "--program", program, "--by", "site", "--heap", "heap", *CACHE
                rows = csv.DictReader(self.good(self.run_tool("by-line", *words)).splitlines())
                found = {row["site"].strip("()"): int(row["references"]) for row in rows}
                self.assertEqual(found, wanted)

    def test_sums(self):
        """The rows of the heap are together as without sites; all others are the same."""
        self.run_traced(blocks())
        for caches in (CACHE, base.cache("1k", 32, "-l1-dassoc", 2),
                       (*base.cache(512, 16), *base.cache("2k", 64, place="l2-u"), "--at=l2-u")):
            wanted, found = collections.Counter(), collections.Counter()
            for row in self.table("object", caches=caches):
                wanted.update({(row["object"], name): int(row[name] or 0) for name in COUNTS})
            for row in self.table("object,site", "--heap", "heap", caches=caches):
                found.update({(row["object"], name): int(row[name] or 0) for name in COUNTS})
                self.assertIn(row["object"], ("(heap)", row["site"]))
            self.assertEqual(found, wanted)

    def test_functions(self):
        """Of allocators who calls them, also where it is inlined; without lines its name."""
        self.run_traced(blocks("-O2"))
        rows = self.table("site", "--heap", "heap")
        names = {row["site"]: row["site-function"] for row in rows}
        for mark, name in {"array": "array()", "list": "list()", "vector": "vector()"}.items():
            self.assertEqual(names[site(TRACED / "blocks.cc", mark)], name)
        self.assertEqual(names["(malloc)"], "")
        array = site(TRACED / "blocks.cc", "array")
        rows = self.table("site", "--heap", "heap", "--evicted-by", caches=base.cache(64, 16))
        own = [row for row in rows if row["site"] == row["evicted-by-site"] == array]
        self.assertEqual([row["evicted-by-site-function"] for row in own], ["array()"])
        self.run_traced(program_of(TRACED / "blocks.cc", compiler="g++"))
        found = self.sites()
        self.assertEqual([found[name] for name in ("(array())", "(list())")], [300, 250])


@base.needs("g++", "gcc", "qemu-user", "binutils", "llvm")
class Processes(HeapTest):
    def test_threads(self):
        source = TRACED / "hands.c"
        for _ in range(3):
            self.run_traced(program_of(source, "-g"))
            found = self.sites()
            wanted = {"given": 600 * 16, "mine": 600 * 2}
            self.assertEqual({mark: found[site(source, mark)] for mark in wanted}, wanted)
            regions = [found.pop(name) for name in REGIONS]
            # at least of the malloc that has 1200 blocks, of 600 turns, and of what each has called
            least = (1000, 12000, 60000, 1200)
            self.assertTrue(all(one >= other for one, other in zip(regions, least)), regions)
            self.assertEqual(sum(found.values()), self.counted_plainly())

    def test_fork(self):
        source = self.write("forks.c", FORKS)
        message = "trace: the program forked, and what its children did is not in the trace\n"
        self.run_traced(program_of(source, "-g"), message=message)
        found = self.sites()
        self.assertEqual([found.get(f"forks.c:{at}") for at in (5, 8, 15)], [31, None, 1])

    def test_a_part(self):
        """The numbers are those of the trace's own lines, whatever is in it."""
        program, array = blocks(), site(TRACED / "blocks.cc", "array")
        for options in (("--kind", "d"), ("--during", "array()"), ("--skip", "200000")):
            with self.subTest(options=options):
                self.run_traced(program, *options)
                self.assertEqual(self.sites()[array], 300)
        self.run_traced(program, "--count", "1000")
        self.assertEqual(self.lines_of()[-1], "3e8 end")


@base.needs("g++", "gcc", "qemu-user", "binutils", "llvm")
class Disturbed(HeapTest):
    def test_references(self):
        """In main all are as without it, except the allocator's stack and thread-local data."""
        program, env = blocks(), {"LD_BIND_NOW": "1"}
        plain, others = (self.traced_to_file("--from", "main", *options, program, env=env)[0]
                         for options in ((), ("--heap", "heap")))
        main = trace_base.symbols_of(program)["main"]
        end = max(at for at, line in enumerate(plain)
                  if line[0] == "2" and trace_base.within(main, line[1]))
        self.assertGreater(end, 30000)
        local = [int(word, 16) for line in self.lines_of() if " t " in line
                 for word in line.split()[2:]]
        moved = {(one[1] - other[1]) % 4096 if one[0] == other[0] else "another"
                 for one, other in zip(plain[:end], others)
                 if not trace_base.within(local, other[1])}
        self.assertEqual(sorted(moved - {0, 16, 32, 48}, key=str)[:5], [])

    def test_environment(self):
        """It is what it would be without the library, and so is the stack's place in its page."""
        program = program_of(self.write("shows.c", SHOWS))
        for env, least in (({}, 0), ({"LD_PRELOAD": ""}, 1), ({"LD_PRELOAD": "libm.so.6"}, 1)):
            shown = [self.traced_to_file(*options, program, env=env)[1]
                     for options in ((), ("--heap", "heap"))]
            self.assertEqual(*(sorted(text.splitlines()[least:]) for text in shown))


@base.needs("g++", "gcc", "qemu-user", "binutils", "llvm")
class Faults(HeapTest):
    def test_programs_without_it(self):
        own = program_of(TRACED / "own_malloc.c", "-g", "-fno-builtin")
        whole = own.read_bytes()
        machine = self.write("of_arm", whole[:18] + b"\xb7" + whole[19:])
        machine.chmod(0o755)
        static = program_of(TRACED / "ends.c", "-static")
        for program, told in ((static, "is static"), (own, "malloc of its own"),
                              (machine, "is for aarch64")):
            self.fault(self.trace("--heap", "heap", program), 125, told)
        hidden = program_of(TRACED / "own_malloc.c", "-g", "-fno-builtin", '-DVISIBILITY="hidden"')
        self.run_traced(hidden)
        self.assertNotIn(site(TRACED / "own_malloc.c", "own"), self.sites())

    def test_files_that_can_not_be_written(self):
        program = blocks()
        self.fault(self.trace("--heap", "/dev/full", program), 125, "can't be written")
        copy = shutil.copy(program, self.folder / "copy")
        for words, told in ((("-o", "heap", "--heap", "heap", program), b"are one file"),
                            (("--heap", copy, copy), b"--heap and the program are one file"),
                            (("--with", "lackey", "--heap", "heap", program), b"is for QEMU")):
            ran = self.run_tool("trace", *words)
            self.assertEqual((ran.returncode, told in ran.stderr), (125, True), ran.stderr)

    def test_files_that_are_not_whole(self):
        self.run_traced(blocks())
        lines = self.lines_of()
        read = ("heap.din", "--map", "heap.map", "--by", "site", "--heap", "cut", *CACHE)
        for text, told in (
            ("\n".join(lines[:-1]) + "\n", "cut has no end"),
            ("\n".join(lines[:-1]), f"cut: line {len(lines) - 1} is none of `trace --heap`"),
            ("\n".join([*lines, "0 end", ""]), f"cut: line {len(lines) + 1} is none"),
            ("", "cut has no end"),
            ("\n".join([*lines[:-1], "10 end", ""]), "and that of --heap had 16"),
        ):
            self.write("cut", text)
            self.refused(self.run_tool("by-line", *read), 1, told)
        told = "--heap and --by site go together"
        self.refused(self.run_tool("by-line", *read[:5], *CACHE), 2, told)
        self.refused(self.run_tool("by-line", *read[:6], "none", *CACHE), 1, "none: No such file")
