"""bench/run, on programs that stand for the two builds: what it stops at, and with which status."""

import os
import re
import shutil
import subprocess
import types
import unittest
from unittest import mock

import base

RUN = base.TOP / "bench/run"
GOOD = 'echo "sweep 4049 b4f2c625a41b7a36"', 'echo "din 733 896b3ccdbea6edb5"'
JOBS = "sweep --sets 1 / din -l1-usize 1k"


class Bench(base.ToolTest):
    """Each test has the checkouts old and new, with one workload and programs that end well."""

    def setUp(self):
        super().setUp()
        for checkout in ("old", "new"):
            (self.folder / checkout / "bench").mkdir(parents=True)
            self.program(checkout, *GOOD)
        self.workloads(f"usual user_jobs SEED + program 10 / {JOBS}")

    def program(self, checkout, *lines, crate="user_jobs"):
        """A script for bash as the program of a checkout."""
        (self.folder / checkout / f"crates/{crate}/out").mkdir(parents=True, exist_ok=True)
        return self.executable(f"{checkout}/crates/{crate}/out/{crate}", *lines)

    def workloads(self, *lines):
        self.write("new/bench/workloads.txt", "".join(f"{line}\n" for line in lines))

    def bench(self, *more, old="old", new="new"):
        return self.run_command(RUN, old, new, *more)

    def stops(self, status, fault, *more, header=True, **given):
        """It ends with this status and one line, and has written no line of the table."""
        ran = self.bench(*more, **given)
        self.assertRegex(ran.stderr.decode(), rf"\Abench/run: {fault}\n\Z")
        self.assertEqual(ran.returncode, status)
        self.assertEqual(len(ran.stdout.splitlines()), 1 if header else 0)

    def wrong(self, fault, *more, **given):
        """It ends with status 2 and one line before it runs anything."""
        for checkout in ("old", "new"):
            self.program(checkout, f"touch {self.folder}/ran")
        self.stops(2, fault, *more, header=False, **given)
        self.assertFalse((self.folder / "ran").exists())


class Runs(Bench):
    def test_what_it_prints(self):
        self.workloads("usual user_jobs SEED + program 10 / sweep", "",
                       "usually user_jobs SEED + lackey 10 / csim")
        lines = self.good(self.bench()).splitlines()
        self.assertEqual(lines[0].split(), "old (least) new (least) old/new".split())
        self.assertEqual([line.split()[0] for line in lines[1:]], ["usual", "usually"])
        for line in lines[1:]:
            self.assertRegex(line, r"^\w+( +\d+\.\d{3}  \(\d+\.\d{3}\)){2} +(\d+\.\d{3}|inf)$")
        lines = self.good(self.bench("--only", "usual", "--turns", "7")).splitlines()
        self.assertEqual([line.split()[0] for line in lines[1:]], ["usual"])

    def test_numbers(self):
        """By hand: behind the first turn the medians are 0.4 and 0.2 seconds, and the least 0.1 and
        0.05. The time of a run is that of the user and of the system."""
        bench, lines, wait = base.script("../bench/run"), [], os.wait4
        times = {"old": [9, 0.7, 0.1, 0.2, 0.5, 0.4, 0.3, 0.6],
                 "new": [0.01, 0.3, 0.05, 0.1, 0.2, 0.25, 0.1, 0.9]}
        used = types.SimpleNamespace(ru_utime=1.5, ru_stime=2.25)
        with mock.patch.object(os, "wait4", lambda *given: (*wait(*given)[:2], used)):
            self.assertEqual(bench.run(self.folder / "old", ["user_jobs"], 1)[1], 3.75)
        with mock.patch.multiple(bench, write=lines.append, run=lambda checkout, *_: (
                b"", times[checkout.name].pop(0))):
            bench.compare_all(types.SimpleNamespace(
                old=self.folder / "old", new=self.folder / "new", only=None, seed=1, turns=7))
        self.assertEqual(lines[1].split(), "usual 0.400 (0.100) 0.200 (0.050) 2.000".split())

    def test_what_it_runs(self):
        """By turns, with the words of the line, the seed instead of its word, in bench/."""
        kept = f'echo "$0 $* in $PWD" >> {self.folder}/ran'
        for checkout in ("old", "new"):
            self.program(checkout, kept, *GOOD)
        self.good(self.bench("4242", "--turns", "8"))
        ran = (self.folder / "ran").read_text().splitlines()
        told = [line.replace(f"{self.folder}/", "") for line in ran]
        of = {name: f"{name}/crates/user_jobs/out/user_jobs 4242 + program 10 / {JOBS} in "
                    f"{name}/bench" for name in ("old", "new")}
        turns = [[of["new"], of["old"]], [of["old"], of["new"]]]
        self.assertEqual(told, [line for at in range(9) for line in turns[at % 2]])

    def test_a_file_that_is_read(self):
        """Of a crate that prints no digests."""
        for checkout in ("old", "new"):
            self.program(checkout, "read line", 'echo "$1 $line"', crate="other")
            self.write(f"{checkout}/bench/trace", "0 10\n")
        self.workloads("piped other sweep <trace")
        self.good(self.bench())
        self.write("old/bench/trace", "0 20\n")
        self.stops(1, "piped: the outputs differ")

    def test_help(self):
        self.assertIn("\n    bench/run OLD NEW ", self.good(self.run_command(RUN, "--help")))


# what both programs do behind GOOD, or what the digests of all are, and how that is told
FAIL_ALIKE = (
    ("echo user_jobs: out of memory >&2; exit 1", "ended with status 1: user_jobs: out of memory"),
    ("printf 'one\\ntwo\\n' >&2; exit 2", "ended with status 2: one"),
    ("exit 3", "ended with status 3"),
    ("kill -KILL $$", "ended by signal 9"),
)
# as user_jobs prints them, which ends with 0
NO_DIGESTS = ("csim line 1: bad label", "swep error: unrecognized subcommand 'swep'",
              "sweep out of memory", "sweep --sets: 3 is no power of two",
              "sweep 4049 b4f2c625a41b7a3", "sweep 4049")


class Faults(Bench):
    """Where a program does other than end well, or than the other, no ratio is told."""

    def of_both(self, told, *lines):
        """What is told where both programs do this."""
        for checkout in ("old", "new"):
            self.program(checkout, *lines)
        self.stops(1, rf"usual: {self.folder}/(old|new)/\S*/user_jobs: {told}")

    def test_outputs_that_differ(self):
        self.program("new", GOOD[0], 'echo "din 733 896b3ccdbea6edb6"')
        self.stops(1, "usual: the outputs differ")

    def test_programs_that_fail_alike(self):
        self.of_both("no command", "")
        for line, told in FAIL_ALIKE:
            with self.subTest(line):
                self.of_both(told, *GOOD, line)
        for line in NO_DIGESTS:
            with self.subTest(line):
                self.of_both(re.escape(line), GOOD[0], f'echo "{line}"', GOOD[1])

    def test_one_that_fails(self):
        """Also in its last turn."""
        counted = f'echo >> {self.folder}/ran; [ $(wc -l < {self.folder}/ran) -lt 8 ] || exit 1'
        for checkout, line in ("old", "exit 1"), ("new", "exit 1"), ("new", counted):
            with self.subTest(checkout):
                for each in ("old", "new"):
                    self.program(each, *GOOD, *[line] * (each == checkout))
                self.stops(1, rf"usual: {self.folder}/{checkout}/\S*: ended with status 1")
        self.assertEqual(len((self.folder / "ran").read_text().splitlines()), 8)

    def test_the_second_workload(self):
        """The line of the first stands in the table."""
        self.program("old", *GOOD, '[ "$3" = program ] || exit 1')
        self.workloads("usual user_jobs SEED + program 10", "other user_jobs SEED + lackey 10")
        ran = self.bench()
        self.assertEqual((ran.returncode, ran.stdout.decode().split()[5]), (1, "usual"))
        self.assertRegex(ran.stderr.decode(), r"\Abench/run: other: .* ended with status 1\n\Z")

    def test_a_table_that_cannot_be_written(self):
        """On a full device, in a pipe that nobody reads, and where output is closed; whether Python
        holds output or not."""
        reader, writer = os.pipe()
        os.close(reader)
        self.addCleanup(os.close, writer)
        full = open("/dev/full", "wb")
        self.addCleanup(full.close)
        for output, after, told in (
            (full, "", "No space left on device"), (writer, "", "Broken pipe"),
            (subprocess.DEVNULL, ">&-", "Bad file descriptor"),
        ):
            for unbuffered in ("", "1"):
                with self.subTest(told, PYTHONUNBUFFERED=unbuffered):
                    words = "bash", "-c", f'exec "$0" old new {after}', RUN
                    given = self.in_folder(PYTHONUNBUFFERED=unbuffered)
                    given |= {"stdout": output, "stderr": subprocess.PIPE, "timeout": 20}
                    ran = subprocess.run(words, **given)
                    wanted = f"bench/run: standard output: {told}\n", 1
                    self.assertEqual((ran.stderr.decode(), ran.returncode), wanted)

    def test_a_fault_of_a_file_and_of_none(self):
        """There is no folder for what the programs write."""
        for given, told, status in (("'No usable folder'", "No usable folder", 1),
                                    ("'Not there', 'a'", "a: Not there", 2)):
            lines = ("import runpy, sys, tempfile", "sys.argv = sys.argv[1:]",
                     f"def refuse(*_): raise FileNotFoundError(2, {given})",
                     "tempfile.TemporaryFile = refuse",
                     "runpy.run_path(sys.argv[0], None, '__main__')")
            ran = self.run_command("python3", "-c", "\n".join(lines), RUN, "old", "new")
            wanted = f"bench/run: {told}\n", status
            self.assertEqual((ran.stderr.decode(), ran.returncode), wanted)


class WrongInput(Bench):
    def test_arguments(self):
        for told, *more in (
            ("argument --turns: '6' is no number from 7 on", "--turns", "6"),
            ("argument --turns: 'x' is no number from 7 on", "--turns", "x"),
            ("argument SEED: '4294967296' is no number from 0 to 4294967295", 2**32),
            ("argument SEED: 'x' is no number from 0 to 4294967295", "x"),
            ("unrecognized arguments: --bogus", "--bogus"),
        ):
            with self.subTest(more):
                self.wrong(f"{told}; 'bench/run --help' explains the arguments", *more)

    def test_workloads(self):
        """Also of a line that is not asked for."""
        file = r"new/bench/workloads\.txt"
        self.wrong(f"no workload usua in {file}", "--only", "usua")
        for line in ("alone", "wrong <trace", "wrong user_jobs <", "wrong user_jobs \0"):
            with self.subTest(line):
                self.workloads("usual user_jobs SEED", "", line)
                told = f"{file}: line 3 is no name, crate and words"
                self.wrong(told, "--only", "usual")
        for text, told in (("", "no workload"), (b"\xff user_jobs\n", "no text")):
            with self.subTest(text):
                self.write("new/bench/workloads.txt", text)
                self.wrong(f"{file}: {told}")
        os.remove(self.folder / "new/bench/workloads.txt")
        self.wrong(f"{file}: No such file or directory")

    def test_checkouts(self):
        """Of each workload the program and the file are there before the first is run."""
        self.wrong(r"absent/bench/workloads\.txt: No such file or directory", new="absent")
        self.wrong("no folder absent/bench", old="absent")
        self.workloads("usual user_jobs SEED", "second other SEED")
        self.program("new", *GOOD, crate="other")
        told = (rf"no program {self.folder}/old/crates/other/out/other: "
                "'rt run' in crates/other builds it")
        self.wrong(told)
        self.program("old", *GOOD, crate="other").chmod(0o644)
        self.wrong(told)
        self.workloads("usual user_jobs SEED <trace")
        self.write("new/bench/trace", "")
        self.wrong("no file old/bench/trace that can be read")
        shutil.rmtree(self.folder / "old/bench")
        self.wrong("no folder old/bench")

    def test_a_program_of_no_known_form(self):
        (self.folder / "old/crates/user_jobs/out/user_jobs").write_bytes(b"\x7fELF")
        self.stops(2, rf"{self.folder}/old/\S*: Exec format error")


if __name__ == "__main__":
    unittest.main()
