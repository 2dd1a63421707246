"""What the tools share: signals, packed traces, the program, cut traces."""

import fcntl
import gzip
import itertools
import os
import shutil
import signal
import struct
import subprocess
import termios
import time

from base import (EXAMPLES, OVER_A_TRACE, PROGRAM, SPACE, STOPPED_SOON, TOOLS, WRITES_A_TRACE,
                  ToolTest, all_processes, catches, comes, copy_tools, ended)

PAGES = "sweep-parallel", "--pages", "2", *SPACE
# tools that read a trace
READERS = {**OVER_A_TRACE, "to-din": ["addresses", "INPUT"]}
# those that run the program while they read, and how many processes there are then
JOINING = {"three-c": 4, "warm": 3, "second-level": 3, "optimal": 3, "over-time": 3, "by-page": 3,
           "any-index": 3, "prefetch": 2, "sweep-parallel": 3, "din-table": 3}
ALL = {**JOINING, "to-din": 2, "by-line": 4}
TRACES = ("second-level", "to-din")
LINES = "".join(f"0 {place:x}\n" for place in range(0, 4000, 16)).encode()


def lines_for(tool):
    """Lines of a trace that a tool takes."""
    return b"ff0\n" * 99 if tool == "to-din" else LINES


def mark_of(tool):
    """What a tool that fails ends its output in."""
    return f"{tool} failed: what stands above is not all\n".encode() if tool in TRACES else b""


class Shared(ToolTest):
    def reading(self, tool, *trace):
        """The words of a call of a tool over a trace."""
        at = READERS[tool].index("INPUT")
        return [TOOLS / tool, *READERS[tool][:at], *trace, *READERS[tool][at + 1:]]

    def read_by(self, tool, trace, **given):
        return self.run_command(*self.reading(tool, trace), **given)

    def program(self, body):
        """A program that is cachesim over an empty trace, and else does what the body says."""
        empty = '[[ $(readlink /proc/self/fd/0) = /dev/null || $* = *"-t /dev/null"* ]]'
        program = self.executable("program", f'{empty} && exec {PROGRAM} "$@"', body)
        return {"CACHESIM": str(program)}


class Traces(Shared):
    def test_no_table_of_a_trace_that_failed(self):
        """A sweep at the other end of a pipe fails too, whatever the fault."""
        for tool in TRACES:
            packed = gzip.compress(lines_for(tool) * 99)
            self.write("cut.gz", packed[: len(packed) // 2])
            self.write("more.gz", packed + b"more")
            for words, told in (
                ("none", f"{tool}: "), ("none.gz", f"{tool}: "), ("cut.gz", "gzip: "),
                ("more.gz", "trailing garbage"), (". x y", f"{tool}: "), ("--nosuch", f"{tool}: "),
                ("", f"{tool}: "),
            ):
                call = self.reading(tool, words) if words else [TOOLS / tool]
                line = " ".join(map(str, [*call, "| cachesim sweep", *SPACE]))
                ran = self.run_command("bash", "-c", line)
                self.refused(ran, 1, told, "cachesim: line ", ": bad label\n")
            helped = self.good(self.run_tool(tool, "--help"))
            self.assertNotIn("failed", helped.replace(f"{tool} failed: ..", ""))

    def test_a_converter_that_is_killed(self):
        copy_tools(self.folder, "to-din")
        self.good(self.run_command(self.folder / "to-din", "--build"))
        (self.folder / "out/to-din").write_text("#!/bin/bash\nread -r; echo 0 10; kill -KILL $$\n")
        self.write("file", "10\n20\n")
        self.run_command("gzip", "-k", "file")
        for files, stdin in ((), b"10\n20\n"), (("file",), b""), (("file.gz",), b""):
            ran = self.run_command(self.folder / "to-din", "addresses", *files, stdin=stdin)
            last = b"to-din failed: what stands above is not all\n"
            self.assertEqual((ran.returncode, ran.stdout), (1, b"0 10\n" + last))


def is_drained(pipe):
    """Whether all that was written to a pipe has been read."""
    return fcntl.ioctl(pipe, termios.FIONREAD, bytes(4)) == struct.pack("i", 0)


class Signals(Shared):
    def waiting(self):
        """The processes whose folder for temporary files is that of this test."""
        mark = f"TMPDIR={self.folder}".encode()
        return [words for _, environment, words in all_processes("environ", "cmdline")
                if mark in environment.split(b"\0")]

    def test_a_signal(self):
        """Where no line comes, a tool ends at once without a word, and no file or process stays.
        The reader of a trace must not take a part for the whole. An interrupt is for all, as from a
        terminal."""
        ways = (signal.SIGTERM, os.kill), (signal.SIGHUP, os.kill), (signal.SIGINT, os.killpg)
        for (tool, number), (sent, send) in itertools.product(ALL.items(), ways):
            source, writer = os.pipe()
            running = self.started(tool, source)
            os.close(source)
            os.write(writer, lines_for(tool))
            # there may have been as many earlier, when a tool tried the program
            self.assertTrue(comes(lambda: is_drained(writer) and
                                  len(self.waiting()) == number), (tool, self.waiting()))
            send(running.pid, sent)
            got = *self.end_of(running), running.returncode
            self.assertEqual(got, (mark_of(tool), b"", -sent), tool)
            self.assertTrue(comes(lambda: not self.waiting()), tool)
            self.assertEqual(list(self.folder.iterdir()), [], tool)
            os.close(writer)

    def test_an_early_signal(self):
        """The same, however far it is."""
        for tool, step in itertools.product(READERS, range(0, 20, 2)):
            with ended(self.started(tool, subprocess.PIPE)) as running:
                self.assertTrue(comes(lambda: catches(running.pid, signal.SIGTERM)))
                time.sleep(0.001 * step)
                running.send_signal(signal.SIGTERM)
                got = *running.communicate(b"", 20), running.returncode
                self.assertEqual(got, (mark_of(tool), b"", -signal.SIGTERM), tool)
            self.assertEqual(list(self.folder.iterdir()), [], tool)

    def test_a_signal_at_an_odd_moment(self):
        """As signals are put off, and as a class is made: it ends the tool as a signal does, and
        not by a status or a fault."""
        for moment in ("    signals.put_off_stops(); signals.stop(15, None)",
                       "    type('Made', (), {'it': Sets()})"):
            ran = self.run_python(
                "from lib import signals, tool",
                "class Sets:", "    def __set_name__(self, *_): signals.stop(15, None)",
                "def main():", moment, "tool.run(main)")
            self.assertEqual((ran.returncode, ran.stdout, ran.stderr), (-15, b"", b""), moment)

    def test_a_signal_just_before_a_wait(self):
        """Python takes note of it, and waits all the same: as of one that another thread got."""
        ran = self.run_python(
            *STOPPED_SOON,
            "from lib import processes, tool",
            "def main():",
            "    with processes.Group() as group:",
            "        threading.Thread(target=stop).start()",
            "        group.start(processes.Helper, ['sleep', '60']).wait()",
            "tool.run(main)", env={"TMPDIR": str(self.folder)})
        self.ends(ran, -signal.SIGTERM, "")
        self.assertTrue(comes(lambda: not self.waiting()))

    def test_a_slow_end(self):
        """What looks each second does not end the tool as Python ends."""
        self.ends(self.run_python(
            "import time", "from lib import signals",
            "class Slow:", "    def __del__(self, sleep=time.sleep): sleep(1.5)",
            "signals.stop_at_signals()", "slow = Slow()"), 0, "")

    def started(self, tool, stdin):
        """A tool over standard input, whose folder for temporary files is that of this test."""
        given = {"stdout": subprocess.PIPE, "stderr": subprocess.PIPE, "start_new_session": True,
                 "env": self.in_folder(TMPDIR=str(self.folder))["env"]}
        return subprocess.Popen(self.reading(tool, "-"), stdin=stdin, **given)

    def test_a_program_that_is_killed(self):
        """One line says so, and no line of a script."""
        (self.folder / "trace").write_bytes(LINES)
        env = self.program("kill -KILL $$")
        for tool in JOINING:
            ran = self.read_by(tool, "trace", env=env)
            told = f"{tool}: (program|page . of 2|the run of .*) ended with signal 9\n"
            self.assertEqual(ran.returncode, 1)
            self.assertRegex(ran.stderr.decode(), rf"\A{told}\Z")


class Beginning(Shared):
    def test_an_interrupt_while_python_reads_modules(self):
        """It ends each tool without a traceback."""
        copy = shutil.copytree(TOOLS, self.folder / "tools", ignore=shutil.ignore_patterns("out"))
        tools = [path for folder in (copy, copy / "lab") for path in folder.iterdir()
                 if path.is_file() and path.read_bytes().startswith(b"#!/usr/bin/python3")]
        self.assertGreaterEqual(len(tools), 10)
        interrupt = "import os, signal\nos.kill(os.getpid(), signal.SIGINT)\n"
        for folder in (copy, copy / "lab"):
            for module in ("contextlib", "argparse"):
                (folder / f"{module}.py").write_text(interrupt)
        for tool in tools:
            ran = self.run_command(tool, "--help")
            is_trace = str(tool.relative_to(copy)) in WRITES_A_TRACE
            last = f"{tool.name} failed: what stands above is not all\n" * is_trace
            got = ran.returncode, ran.stdout.decode(), ran.stderr
            self.assertEqual(got, (-signal.SIGINT, last, b""), tool)


class PackedTraces(Shared):
    def test_an_unpacker_that_is_killed(self):
        """By whatever signal: what came before is no whole trace."""
        for number in ("KILL", "PIPE", "TERM"):
            line = f"printf '0 10\\n0 20\\n'; kill -{number} $$"
            env = self.stand_in("gzip", line)
            self.write("t.gz", gzip.compress(LINES))
            for tool in [*JOINING, "by-line"]:
                with self.subTest(tool=tool, number=number):
                    ran = self.read_by(tool, "t.gz", env=env)
                    self.assertEqual(ran.returncode, 1, ran.stderr)
                    self.assertIn(b"gzip ended with signal", ran.stderr)
                    self.assertEqual(ran.stdout, b"0 10\n0 20\n" * bool(mark_of(tool)) +
                                     mark_of(tool))

    def test_missing_packages(self):
        """All that a plain trace needs is there."""
        self.write("t.din", LINES)
        packages = {"gz": "gzip", "zst": "zstd", "xz": "xz-utils"}
        for tool in JOINING:
            self.read_by(tool, "t.din")  # a tool's C part is compiled at its first use
            self.good(self.read_by(tool, "t.din", env={"PATH": "/none"}))
            for suffix, package in packages.items():
                self.write(f"t.{suffix}", b"")
                ran = self.read_by(tool, f"t.{suffix}", env={"PATH": "/none"})
                told = ran.stderr.decode()
                self.assertRegex(told, rf"\A{tool}: \w+ is missing: apt-get install {package}\n\Z")


class Program(Shared):
    def test_another_program(self):
        """One that ends well and writes nothing, or something else, is not taken for cachesim."""
        (self.folder / "trace").write_bytes(LINES)
        other = self.executable("other", "echo bsize,sets,assoc,size,hits,misses,evictions")
        lackey = EXAMPLES / "blocks.lackey"
        calls = (self.reading("warm", "trace"), [TOOLS / "lab/grade", "/bin/true", lackey],
                 [TOOLS / "lab/replay", *"-s 1 -E 1 -b 4 -t".split(), lackey])
        for program, (tool, *words) in itertools.product(("/bin/true", str(other)), calls):
            ran = self.run_command(tool, *words, env={"CACHESIM": program})
            self.assertEqual(ran.returncode, 2 if tool.name == "grade" else 1, tool)
            fault = f"{program} is not cachesim: it doesn't write a sweep's table"
            self.assertRegex(ran.stderr.decode(), rf"\A[\w-]+: {fault}\n\Z")

    def test_a_column_more(self):
        """The tools take a program whose table has a column more, and find the others anywhere."""
        (self.folder / "trace").write_bytes(LINES)
        more = r's/^\(\([^,]*,\)\{4\}\)\([a-z]*\)/\1\3more,\3/'
        other = self.executable("other", f'[ "$1" = sweep ] || exec {PROGRAM} "$@"',
                                f'{PROGRAM} "$@" | sed "{more}"')
        env = {"CACHESIM": str(other)}
        for tool in ("warm", "three-c", "sweep-parallel"):
            wanted = self.good(self.read_by(tool, "trace"))
            told = self.good(self.read_by(tool, "trace", env=env))
            self.assertNotEqual(told, wanted, tool)
            lines = [line.split(",") for line in told.splitlines()]
            lines = [",".join(line[:4] + line[5:]) for line in lines]
            self.assertEqual(lines, wanted.splitlines(), tool)
        told = self.good(self.run_tool(*PAGES, env=env))
        self.assertEqual(told, self.good(self.run_tool(*PAGES)))


class Compiling(Shared):
    def test_a_folder_that_cannot_be_written(self):
        """The message names what to do."""
        copy_tools(self.folder, "to-din")
        (self.folder / "out").write_text("a file in the way\n")
        trace = EXAMPLES / "formats/addresses.txt"
        ran = self.run_command(self.folder / "to-din", "addresses", trace)
        told = (f"to-din: {self.folder}/out can't be written: 'make tools' compiles the C parts, "
                "by someone who may write there\n")
        self.assertEqual((ran.returncode, ran.stderr.decode()), (1, told))

    def test_another_part_is_newer(self):
        """make is called once, and then the part is taken as it is."""
        copy_tools(self.folder, "to-din")
        given = self.folder / "to-din", "addresses", EXAMPLES / "formats/addresses.txt"
        wanted = self.good(self.run_command(*given))
        now = time.time()
        for path in self.folder.rglob("*"):
            os.utime(path, (now - 200, now - 200))
        os.utime(self.folder / "out/to-din", (now - 100, now - 100))
        os.utime(self.folder / "lib/second-level.c", (now - 50, now - 50))
        for env in {}, {"PATH": "/none"}:
            self.assertEqual(self.good(self.run_command(*given, env=env)), wanted)


class Streams(ToolTest):
    def test_help_on_a_full_device(self):
        full = "No space left on device"
        for tool, status in ("warm", 1), ("trace", 125), ("best", 1):
            ran = self.run_command("bash", "-c", f"{TOOLS}/{tool} --help > /dev/full", seconds=20)
            told = f"{tool}: standard output: {full}\n"
            self.assertEqual((ran.stderr.decode(), ran.returncode), (told, status))

    def test_closed_streams(self):
        (self.folder / "t.csv").write_text("16,1,1,16,5,5,4\n")
        for table, mark, stream in ("-", "<&-", "input"), ("t.csv", ">&-", "output"):
            ran = self.run_command("bash", "-c", f'exec "$0" {table} {mark}', TOOLS / "best")
            self.refused(ran, 1, f"best: standard {stream}: Bad file descriptor\n")
