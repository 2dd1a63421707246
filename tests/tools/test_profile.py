"""From a program to its misses in one command, and the caches of the machine."""

import contextlib
import csv
import io
import os
import shutil
import signal
import subprocess

import base
import trace_base
from base import cache
from test_by_line import ByLineTest
from trace_base import TRACED, program_of

CACHE = cache("1k", "64", "-l1-dassoc", "16")
# a matrix of 64 KiB, read by columns: each of its 8,192 reads misses, 1,024 of them for the first
# time; the block of an element stays until the next column only in a cache of 128 blocks
COLUMNS = """\
#include <stdio.h>
#include <stdlib.h>
__attribute__((aligned(64))) double matrix[128][64];
__attribute__((noinline)) double sum(void) {
    double all = 0;
    for (int j = 0; j < 64; j++)
        for (int i = 0; i < 128; i++)
            all += matrix[i][j];
    return all;
}
int main(int count, char **words) {
    double *kept = aligned_alloc(64, 80000);
    for (int i = 0; i < 10000; i++) kept[i] = i;
    matrix[0][0] = kept[1];
    printf("%.0f\\n", sum());
    return count > 1 ? atoi(words[1]) : 0;
}
"""
# of each file of /sys/devices/system/cpu/cpu0/cache/index*
SHAPES = (("Data", 1, 64, 64, 12), ("Instruction", 1, 64, 128, 4), ("Unified", 2, 64, 1024, 20),
          ("Unified", 3, 64, 40960, 11))


def built(name, text):
    source = trace_base.built() / f"{name}.c"
    source.write_text(text)
    return program_of(source, "-g")


@base.needs("gcc", "qemu-user", "binutils", "llvm")
class Profile(base.ToolTest):
    @classmethod
    def setUpClass(cls):
        cls.program = built("columns", COLUMNS)

    def profile(self, *words, **given):
        return self.run_tool("profile", *CACHE, *words, **given)

    def table(self, *words):
        """The table in CSV, by the first column; what the program wrote went to standard error."""
        ran = self.profile("--csv", *words, self.program)
        self.assertEqual((ran.stderr, ran.returncode), (b"1\n", 0))
        rows = csv.DictReader(ran.stdout.decode().splitlines())
        return {row[rows.fieldnames[0]]: row for row in rows}

    def test_lines(self):
        """Each read of the matrix misses, as the source says; 1,024 blocks are new."""
        row = self.table("--during", "sum")["columns.c:8"]
        counts = [row[name] for name in ("references", "misses", "compulsory", "capacity")]
        self.assertEqual(counts, ["8192", "8192", "1024", "7168"])
        self.assertEqual(row["source"], "all += matrix[i][j];")

    def test_objects_and_sites(self):
        rows = self.table("--by", "object", "--during", "sum")
        self.assertEqual(rows["matrix"]["misses"], "8192")
        row = self.table("--by", "site", "--callers", "2", "--from", "main")["columns.c:12"]
        # 10,000 writes and one read, of 1,250 blocks
        self.assertEqual((row["references"], row["compulsory"]), ("10001", "1250"))
        self.assertEqual(row["source"], "double *kept = aligned_alloc(64, 80000);")

    def test_text(self):
        """The caches, the first rows, how many more there are, and the program's status."""
        ran = self.profile("--rows", "1", self.program, "7")
        self.assertEqual((ran.stderr, ran.returncode), (b"1\n", 7))
        caches, what, names, row, rest = ran.stdout.decode().splitlines()
        self.assertEqual((caches, what), (" ".join(CACHE), "misses of l1-d:"))
        wanted = "share misses references mostly line function source"
        self.assertEqual(names.split(), wanted.split())
        self.assertRegex(row, r" *\d+\.\d+ +819[012] +8192 +capacity +columns\.c:8 +sum +all \+= ")
        self.assertRegex(rest, r"\(and \d+ more rows, with \d+\.\d % of the misses: --rows 0 ")

    def test_output(self):
        """The table in a file, which is left as it is where the program can't be run. What the
        program writes then goes where it would go."""
        ran = self.profile("-o", "table", self.program)
        self.assertEqual((ran.stdout, ran.stderr, ran.returncode), (b"1\n", b"", 0))
        table = (self.folder / "table").read_text()
        self.assertIn("all += matrix[i][j];", table)
        for words, status, told in (
            (["./none"], 127, "trace: ./none is not found\n"),
            (["--from", "none", self.program], 125, "trace: "),
            (["--by", "x", self.program], 125, "by-line: argument --by: 'x' is not one or more"),
            (["-l1-dassoc", "3", self.program], 125, "cachesim: error:"),
            (["--at", "l2-u", self.program], 125, "by-line: there is no cache l2-u"),
        ):
            ran = self.profile("-o", "table", *words)
            self.assertEqual((ran.returncode, ran.stdout), (status, b""))
            self.assertTrue(ran.stderr.decode().startswith(told), ran.stderr)
            self.assertEqual((self.folder / "table").read_text(), table)

    def test_evictions_and_sharing(self):
        ran = self.profile("--evicted-by", "--during", "sum", "--rows", "1", self.program)
        self.assertRegex(ran.stdout.decode(), r"columns\.c:8 +sum +columns\.c:8 +sum")
        counters = program_of(TRACED / "counters.c", "-g")
        ran = self.profile("--shared", "--rows", "0", counters)
        self.assertEqual(ran.returncode, 0)
        self.assertRegex(ran.stdout.decode(), r" counters +0 +7 +20000 +20000 ")

    def test_callgrind(self):
        self.table("--callgrind", "counts")
        self.assertIn("events: References Misses", (self.folder / "counts").read_text())

    def test_signals(self):
        """One ends the tool and the program; nothing is left."""
        words = [base.TOOLS / "profile", *CACHE, program_of(TRACED / "ends.c", "-g"), "interrupt"]
        private = self.folder / "private"
        private.mkdir()
        given = self.in_folder(TMPDIR=str(private))
        with base.ended(subprocess.Popen(words, stdout=subprocess.PIPE, stderr=subprocess.PIPE,
                                         start_new_session=True, **given)) as running:
            self.assertEqual(running.stderr.readline(), b"spins\n")
            os.kill(running.pid, signal.SIGTERM)
            self.assertEqual(running.wait(20), -signal.SIGTERM)
            self.assertTrue(base.comes(lambda: not base.processes(running.pid)))
        self.assertEqual([*private.iterdir()], [])

    def test_arguments(self):
        for words, told in (([], "a program is wanted"), (["--rows", "x", "true"], "--rows takes"),
                            (["--bogus=1", "true"], "--bogus is no option")):
            self.refused(self.run_tool("profile", *words), 125, f"profile: {told}")
        program = self.write("program", self.program.read_bytes())
        program.chmod(0o755)
        for words, told in ((["-o", "program"], "--output and the program are one file"),
                            (["--output=own"], "--output and its argument own are one file")):
            self.refused(self.profile(*words, "./program", "own"), 125, f"profile: {told}")


class Machine(base.ToolTest):
    """The caches of a machine, as the files in /sys have them."""

    def found(self, shapes):
        for number, (kind, level, *rest) in enumerate(shapes):
            folder = self.folder / f"index{number}"
            folder.mkdir()
            names = "coherency_line_size", "number_of_sets", "ways_of_associativity"
            for name, text in zip(("type", "level", *names), (kind, level, *rest)):
                (folder / name).write_text(f"{text}\n")
        from lib import machine
        return machine.caches(str(self.folder))

    def test_caches(self):
        """The first level, and the last one, whose sets become a power of two: 40,960 of 11 ways
        are 28,835,840 bytes, and 32,768 sets of 13 ways the most that is not larger."""
        found = self.found(SHAPES)
        self.assertEqual([(*one.simulated(),) for one in found], [
            ("l1-d", 1, 64, 64, 12), ("l1-i", 1, 64, 128, 4), ("l2-u", 3, 64, 32768, 13)])
        options = " ".join(found[2].simulated().options())
        self.assertEqual(options, "-l2-ubsize 64 -l2-usets 32768 -l2-uassoc 13")
        self.assertIn("instead of 28160k, 40960 sets of 11 ways", found[2].told())
        first = "l1-d  48k, 64 sets of 12 ways, blocks of 64 bytes (L1)"
        self.assertEqual(found[0].told(), first)

    def test_more_lines_than_cachesim_has(self):
        """480 MiB: as many ways as make up for the sets, then half of these, 240 MiB."""
        last = self.found([*SHAPES[:1], ("Unified", 3, 64, 491520, 16)])[1]
        self.assertEqual((*last.simulated(),), ("l2-u", 3, 64, 131072, 30))
        words = [*last.simulated().options(), "-t", "/dev/null"]
        self.good(self.run_command(base.PROGRAM, "din", *cache("1k", "64"), *words))

    def test_others(self):
        """One level, a unified first one; and none that is told."""
        found = self.found([("Unified", 1, 32, 256, 4)])
        self.assertEqual([(*one,) for one in found], [("l1-u", 1, 32, 256, 4)])
        from lib import machine
        with self.assertRaises(SystemExit), contextlib.redirect_stderr(io.StringIO()) as told:
            machine.caches(str(self.folder / "none"))
        self.assertIn("tells of no cache: give some, such as -l1-dsize 32k", told.getvalue())


@base.needs("gcc", "qemu-user", "binutils", "llvm")
class Piped(ByLineTest):
    """A trace that comes to by-line through a pipe from the run that writes its map."""

    def test_same_as_from_files(self):
        shutil.copy(built("columns", COLUMNS), self.folder / "program")
        trace = f"PATH={base.TOOLS}:$PATH; trace --program-output none --map m"
        cases = [("", ""), ("--by object", ""), ("--by line,object --source", ""),
                 ("--by site --heap h", "--heap h"), ("--shared", "--threads")]
        for options, more in cases:
            with self.subTest(options):
                for name in "m", "h":
                    self.write(name, "of another run\n")
                options = f"--map m {options} {' '.join(CACHE)}"
                line = f"{trace} {more} ./program | by-line - {options}"
                piped = self.good(self.run_command("bash", "-c", line))
                line = f"{trace} {more} -o t ./program; by-line t {options}"
                self.assertEqual(piped, self.good(self.run_command("bash", "-c", line)))

    def test_no_map(self):
        ran = self.run_tool("by-line", "-", "--map", "none", *CACHE, stdin=b"0 10\n")
        self.refused(ran, 1, "by-line: none: No such file or directory")
