"""Sweeps by several processes, and the pages that they write."""

import itertools
import math
import os
import pty
import re
import select
import shlex
import subprocess

import reading_base
from base import EXAMPLES, PROGRAM, TOOLS, ToolTest, ended, needs
from lib import paging

HEADER = "bsize,sets,assoc,size,hits,misses,evictions\n"
SPACE = "--bsize 16-128 --sets 1-4096 --assoc 1-16 --size 1k-1m".split()
SMALL = "--bsize 16-32 --sets 1-64 --assoc 1-4 --size 1k-4k".split()
# of the nine configurations only these have 64 bytes to 1k: 16,2,2, then 16,4,1 and 16,4,2
THREE = "--bsize 16 --sets 1-4 --assoc 1-2 --size 64-1k".split()
DEEP = "--bsize 4-64 --sets 1-256 --assoc 1-64 --size 0-1g".split()
SPACES = (SPACE, SMALL, THREE, DEEP, "--bsize 64 --sets 1 --assoc 1-300 --size 0-1m".split())
PAGES = "sweep-parallel", "--pages"
LACKEY, DIN = EXAMPLES / "transpose.lackey", EXAMPLES / "sort.din"


def pair(row):
    return tuple(map(int, row.split(",")[:2]))


def cost(pairs):
    """The cost of a page of pairs, each with its greatest associativity, as the help says."""
    whole, last = 0, None
    for bsize, sets, assoc in pairs:
        behind = last and last[0] == bsize
        looks = min(1, 7 / (last[0] * last[1]) ** 0.4) if behind else 1
        whole += looks + 4 * math.log2(1 + min(assoc, 256)) / (bsize * sets**0.3)
        last = bsize, sets
    return whole


def dearest_page(pairs, most):
    """The cost of the dearest of so many pages, where it is least: by dynamic programming."""
    ends = range(1, len(pairs) + 1)
    costs = {(cut, end): cost(pairs[cut:end]) for end in ends for cut in range(end)}
    least = [0] + [math.inf] * len(pairs)
    for _ in range(most):
        least = [0] + [min(max(least[cut], costs[cut, end]) for cut in range(end)) for end in ends]
    return least[-1]


class ParallelTest(reading_base.Many, ToolTest):
    pass


class Pages(ParallelTest):
    def pages(self, *arguments):
        return self.good(self.run_tool(*PAGES, *arguments)).splitlines()

    def test_by_hand(self):
        """Of a table of three rows, all, parts, and none."""
        space, none = " ".join(THREE), " ".join((*THREE[:-1], "5-6"))
        behind = f"{space} --after 16,2,2"
        for words, *pages in (
            (f"1 {space}", f"{space} --rows 3"),
            *((f"{most} {space}", f"{space} --rows 1", f"{behind} --rows 2")
              for most in (2, 3, 99)),
            (f"2 {space} --rows 2", f"{space} --rows 1", f"{behind} --rows 1"),
            (f"2 {space} --after 16,2,2", f"{behind} --rows 2"),
            (f"2 --rows=07 --pow2 {space} --after=16,4,1 --",
             f"--pow2 {space} --after 16,4,1 --rows 1"),
            (f"4 {none}", f"{none} --rows 0"),
            (f"4 {space} --rows 0", f"{space} --rows 0"),
            (f"4 {space} --after 32,0,0", f"{space} --after 32,0,0 --rows 0"),
        ):
            self.assertEqual(self.pages(*words.split()), pages, words)

    def test_cuts(self):
        """Cut between pairs, pages make up the table, the dearest no dearer than it must be."""
        for space, most in itertools.product(SPACES, (1, 2, 3, 4, 7, 16, 500)):
            table = self.sweep(*space, "-t", "/dev/null").splitlines()[1:]
            pairs = {pair(row): tuple(map(int, row.split(",")[:3])) for row in table}
            taken = [pair(row) for row in table]
            pages, dearest, after = self.pages(most, *space), 0, ""
            for page in pages:
                rows = int(page.split()[-1])
                self.assertEqual(page, f"{' '.join(space)}{after} --rows {rows}")
                after = " --after " + ",".join(table[rows - 1 - len(taken)].split(",")[:3])
                here, taken = taken[:rows], taken[rows:]
                self.assertNotEqual(here[-1], taken[0] if taken else None, page)
                dearest = max(dearest, cost([pairs[name] for name in dict.fromkeys(here)]))
            self.assertEqual(taken, [])
            self.assertLessEqual(len(pages), most)
            least = dearest_page(list(pairs.values()), min(most, len(pairs)))
            self.assertAlmostEqual(dearest, least)
        self.assertEqual(len(self.pages("auto", *SPACE)), min(49, len(os.sched_getaffinity(0))))
        # the processors that it may use, and not all that are there
        one = ("taskset", "-c", min(os.sched_getaffinity(0)))
        pages = self.good(self.run_command(*one, TOOLS / PAGES[0], PAGES[1], "auto", *SPACE))
        self.assertEqual(pages.count("\n"), 1)
        noted = self.program('echo "$after" >> pages')
        self.good(self.run_command(*one, TOOLS / "sweep-parallel", "auto", DIN, *SPACE, env=noted))
        self.assertEqual((self.folder / "pages").read_text().count("\n"), 1)

    @needs("parallel")
    def test_by_gnu_parallel(self):
        """As the help shows it."""
        shown = self.good(self.run_tool("sweep-parallel", "--help"))
        script = f'set -e; HOME=$PWD; "{TOOLS}/sweep-parallel" --pages 4 '
        shown = shown.split("\n    sweep-parallel --pages 4 ")[1]
        script += shown.replace("trace.din", shlex.quote(str(DIN)))
        self.good(self.run_command("bash", "-c", script))
        self.assertEqual((self.folder / "table.csv").read_text(), self.sweep(*SPACE, "-t", DIN))


class Growing(ParallelTest):
    """A file that is written to while runs read it: all rows are of the same references, or the
    tool fails."""

    def grown(self, tool, *words, change):
        """A run in which one of the program's runs waits until the trace has changed."""
        self.write("t.din", DIN.read_bytes())
        waits = f'if mkdir first 2> /dev/null; then {change}; fi'
        return self.run_tool(tool, *words, env=self.program(waits))

    def test_changes(self):
        before = DIN.read_text().splitlines(keepends=True)
        changes = "echo 0 10 >> t.din", "mv same.din t.din", "truncate -s -5 t.din", "touch t.din"
        told = "t.din has changed while it was read: not all runs have counted the same references"
        calls = (("sweep-parallel", 3, "t.din", *SPACE),
                 ("din-table", 2, "t.din", "-l1-dsize", "1k-4k", "-l1-dbsize", "16"))
        for (tool, *words), change in itertools.product(calls, changes):
            self.write("same.din", "".join([*before[:-1], "0 7fffffff0\n"]))
            ran = self.grown(tool, *words, change=change)
            (self.folder / "first").rmdir()
            self.refused(ran, 1, f"{tool}: {told}\n")

    def test_rows_of_another_trace(self):
        """Also where no time of change tells: rows that count other references are no table."""
        self.write("t.din", DIN.read_bytes())
        self.write("u.din", DIN.read_bytes() + b"0 10\n")
        calls = (("sweep-parallel", "*--after*", "t.din", 2, "t.din", *THREE),
                 ("din-table", "*size=2048*", "the trace", 2, "t.din", "-l1-dsize", "1k-4k",
                  "-l1-dbsize", "16"))
        for tool, one, name, *words in calls:
            env = self.program(f'[[ $* != {one} ]] || exec {PROGRAM} "${{@/t.din/u.din}}"')
            self.refused(self.run_tool(tool, *words, env=env), 1, f"{tool}: {name} has changed")

    def test_what_is_read_once(self):
        """It may change: all runs get the same bytes."""
        self.write("t.din", DIN.read_bytes())
        for tool, *words in (("three-c", "t.din"), ("warm", 100, "t.din")):
            wanted = self.good(self.run_tool(tool, *words, *SPACE))
            got = self.good(self.grown(tool, *words, *SPACE, change="echo 0 10 > t.new"))
            (self.folder / "first").rmdir()
            self.assertEqual(got, wanted)


class SameBytes(ParallelTest):
    def same(self, most, trace, *arguments, single=None, **given):
        wanted = self.sweep("-t", single or trace, *arguments)
        told = self.good(self.run_tool("sweep-parallel", most, trace, *arguments, **given))
        self.assertEqual(told, wanted)
        return wanted

    def test_spaces(self):
        for space, most in itertools.product(SPACES, (1, 2, 4)):
            self.same(most, DIN, *space)
        for most in (3, 13, 200, "auto"):
            self.same(most, DIN, *SMALL)

    def test_options(self):
        for options, trace in itertools.product(
            ("--kind d", "--kind=i", "--pow2", "--rows 0", "--rows 7", "--after 16,16,4",
             "--after=9,9,9 --rows=5", "--after 99,1,1 --pow2", "--"), ("-", DIN)
        ):
            self.same(3, trace, *SMALL, *options.split(), single=DIN, stdin=DIN.read_bytes())
        for kind in "udi":
            self.same(4, LACKEY, *SPACE, "--format", "l", "--kind", kind)

    def test_no_row(self):
        self.assertEqual(self.same(4, DIN, *THREE[:-1], "5-6"), HEADER)
        self.assertEqual(self.same(4, DIN, *THREE[:-1], "5-6", "--after", "1,1,1"), "")
        self.assertEqual(self.same(4, "/dev/null", *THREE, "--rows", "0"), HEADER)

    def test_read_once(self):
        """Standard input from where it stands, a pipe with a name, and one from bash."""
        text = LACKEY.read_bytes()
        options = (*SPACE, "--format", "l")
        self.same(4, "-", *options, single=LACKEY, stdin=text)
        rest = self.sweep(*options, "-t", self.write("rest", text[text.index(b"\n") + 1:]))
        os.mkfifo(self.folder / "pipe")
        run = f'run() {{ "{TOOLS}/sweep-parallel" 4 "$1" {" ".join(options)}; }}'
        for script, wanted in (
            ('{ read -r line; run -; } < "$1"', rest),
            ('cat -- "$1" > pipe & run pipe; run <(cat -- $1); run /dev/stdin < "$1"',
             3 * self.sweep(*options, "-t", LACKEY)),
        ):
            told = self.good(self.run_command("bash", "-c", f"{run}; {script}", "-", LACKEY))
            self.assertEqual(told, wanted)

    def test_progress(self):
        """On a terminal, what is read is told each second; elsewhere nothing is."""
        # a page is not done before it is told
        slow = self.program('[[ $* != *" slow"* ]] || until [ -e go ]; do sleep 0.01; done')
        given = {"cwd": self.folder, "env": {**os.environ, **slow},
                 "stdin": subprocess.PIPE, "stdout": subprocess.PIPE}
        for trace, shown in ("-", rb"0 MB"), ("slow", rb"\d+ %"):
            shown = rb"\rsweep-parallel: " + shown + b" of the trace read"
            self.write("slow", DIN.read_bytes())
            (self.folder / "go").unlink(missing_ok=True)
            master, terminal = pty.openpty()
            arguments = [TOOLS / "sweep-parallel", "2", trace, *SMALL]
            with ended(subprocess.Popen(arguments, stderr=terminal, **given)) as ran:
                os.close(terminal)
                told = self.read_until(master, shown)
                self.write("go", b"")
                table = ran.communicate(DIN.read_bytes(), 60)[0].decode()
                self.assertEqual((table, ran.returncode), (self.sweep(*SMALL, "-t", DIN), 0))
            told += self.read_until(master, rb"\r\033\[K\Z", told)
            os.close(master)
            self.assertRegex(told, shown)
            self.assertTrue(told.endswith(b"\r\033[K"))
        self.same(2, "slow", *SMALL, single=DIN, env=slow)

    def read_until(self, terminal, shown, told=b""):
        """What more a terminal shows, until all that it has shown has this."""
        more = b""
        while not re.search(shown, told + more) and select.select([terminal], [], [], 20)[0]:
            try:
                more += os.read(terminal, 10000)
            except OSError:  # the tool has ended
                break
        return more


class Faults(reading_base.ReadingForMany, ParallelTest):
    TOOL = "sweep-parallel"
    OPTIONS = SPACE
    RUN = '*"--after"*', "page 2 of 2"

    def tool(self, *arguments, **given):
        return self.run_tool("sweep-parallel", *arguments, seconds=30, **given)

    def test_bad_line_without_a_row(self):
        for rows, most in itertools.product((0, 1, 99), (1, 2, 4)):
            ran = self.tool(most, "-", *SPACE, "--rows", rows, stdin=b"0 10\n0 20\n2 1g\n0 30\n")
            self.failed(ran, 1, "cachesim: line 3: bad address\n")

    def test_bad_line_of_a_long_trace(self):
        text = b"0 10\n" * 300_000 + b"0 x\n" + b"0 10\n" * 300_000
        for trace in (self.write("many", text), "-"):
            ran = self.tool(4, trace, *SPACE, stdin=text)
            self.failed(ran, 1, "cachesim: line 300001: bad address\n")

    def test_flags_of_a_later_program(self):
        """A word that no value follows is one."""
        words = "--new --bsize 16 --after 1,1,1 --sets=1 --rows 2 --last".split()
        self.assertEqual(paging.split(words), ("--new --bsize 16 --sets 1 --last".split(), "1,1,1"))

    def test_arguments(self):
        for words, *faults in (
            ((4, "none", "--bsize", "24", *SPACE[2:]), "cachesim: bsize: not a power of two\n"),
            ((4, "-", *SPACE[2:]), "cachesim: error: ", "--bsize <RANGE>"),
            *(((4, DIN, *SPACE, word, DIN), "sweep-parallel: leave out -t")
              for word in ("-t", "-tx", "-t=x")),
            *(((most, DIN, *SPACE), f"sweep-parallel: {most} is no number of jobs")
              for most in ("0", "-1", "four", "", "4 4")),
            ((4,), "sweep-parallel: the number of jobs and the trace are missing"),
        ):
            self.refused(self.tool(*words), 2, *faults)
            if len(words) > 1:  # the pages are of no trace
                self.refused(self.tool("--pages", words[0], *words[2:]), 2, *faults)
        self.refused(self.tool("--pages"), 2, "sweep-parallel: the number of jobs is missing")

    def test_a_parent_that_ignores_ends_of_processes(self):
        """The end of a process can't be waited for where this signal is ignored, as some who start
        the tool leave it."""
        call = "env", "--ignore-signal=CHLD", TOOLS / "sweep-parallel"
        ran = self.run_command(*call, 2, DIN, *SMALL)
        self.assertEqual(self.good(ran), self.sweep(*SMALL, "-t", DIN))
        ran = self.run_command(*call, "--pages", 1, *THREE)
        self.assertEqual(self.good(ran), f"{' '.join(THREE)} --rows 3\n")

    def test_an_output_that_takes_a_part(self):
        """A pipe that is not waited for takes its first 64 KiB in one call, and then nothing."""
        read, write = os.pipe()
        os.set_blocking(write, False)
        space = "--bsize 16 --sets 1 --assoc 1-4k --size 0-64k".split()
        given = {"stderr": subprocess.PIPE, "timeout": 60, **self.in_folder()}
        ran = subprocess.run([TOOLS / "sweep-parallel", "1", DIN, *space], stdout=write, **given)
        os.close(write)
        os.close(read)
        self.assertEqual((ran.returncode, ran.stderr), (1, b"sweep-parallel: write failed\n"))
