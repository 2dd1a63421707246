"""What the tests of `trace` share: programs to trace, and what is asked of a run."""

import atexit
import functools
import os
import pathlib
import platform
import re
import shutil
import subprocess
import tempfile

from base import TOOLS, ToolTest, all_processes, comes

TRACED = pathlib.Path(__file__).parent / "traced"
QEMU = f"qemu-{platform.machine()}"
# what its stand-in, traced/fake_qemu.c, tells of itself
FAKE = {"FAKE_VERSION": "7.2.22", "FAKE_HELP": "-plugin ..", "FAKE_START": "0"}
LINE = re.compile(r"[012] (0|[1-9a-f][0-9a-f]{0,15})\n")
SPACE = ("--bsize", "16-64", "--sets", "1-16", "--assoc", "1-4", "--size", "64-4k")


@functools.cache
def built():
    """A folder for what is compiled. It is removed when the tests have ended."""
    folder = pathlib.Path(tempfile.mkdtemp(prefix="cachesim-traced-"))
    atexit.register(shutil.rmtree, folder, ignore_errors=True)
    return folder


@functools.cache
def program_of(source, *flags, compiler="cc"):
    """A program without position independence: the addresses of its own data are those of nm."""
    target = built() / f"{source.stem} {compiler}{''.join(flags)}"
    flags = ["-O1", "-Wall", "-Wextra", "-Werror", "-no-pie", "-pthread", *flags]
    subprocess.run([compiler, *flags, "-o", target, source], check=True)
    return target


def traced(name, **given):
    return program_of(TRACED / f"{name}.c", "-static", **given)


@functools.cache
def symbols_of(program):
    """Of each thing in a program its address and its size."""
    rows = map(str.split, subprocess.check_output(["nm", "-S", program], text=True).splitlines())
    return {row[3]: (int(row[0], 16), int(row[1], 16)) for row in rows if len(row) == 4}


@functools.cache
def lines_of(program, addresses):
    """Of addresses in a program the file's name and the line; '?' where there is none."""
    asked = ["addr2line", "-e", program, *map(hex, addresses)]
    lines = subprocess.check_output(asked, text=True).splitlines()
    names = (os.path.basename(line.partition(" ")[0]) for line in lines)
    lines = (name if re.fullmatch(r"\S+:[1-9]\d*", name) else "?" for name in names)
    return dict(zip(addresses, lines))


def within(place, address):
    return place[0] <= address < place[0] + place[1]


class TraceTest(ToolTest):
    with_ = "qemu"

    def trace(self, *arguments, **given):
        return self.run_tool("trace", "--with", self.with_, *arguments, **given)

    def lines(self, text):
        """The label and the address of each line of a trace; every line must be whole and good."""
        for number, line in enumerate(text.splitlines(keepends=True), 1):
            if not LINE.fullmatch(line):
                self.fail(f"line {number}: {line!r}")
        return [(line[0], int(line[2:], 16)) for line in text.splitlines()]

    def traced_to_file(self, *arguments, status=0, message="", **given):
        """The lines of a trace in a file; how the run ended must be as it is told."""
        ran = self.trace("-o", "trace.din", *arguments, **given)
        self.assertEqual((ran.returncode, ran.stderr.decode()), (status, message))
        return self.lines((self.folder / "trace.din").read_text()), ran.stdout.decode()

    def own_data(self, lines, program, *names):
        """The data references to things of a program, as label, name and offset."""
        places = [(name, symbols_of(program)[name]) for name in names]
        data = [(label, at) for label, at in lines if label != "2"]
        return [(label, name, at - place[0]) for label, at in data
                for name, place in places if within(place, at)]

    def fault(self, ran, status, *texts):
        """A fault of the tool: one message, and a trace whose last line is not a valid one."""
        message = ran.stderr.decode()
        self.assertEqual((ran.returncode, message.count("\n")), (status, 1), message)
        last = ran.stdout.splitlines()[-1]
        self.assertTrue(last.startswith((b"trace: ", b"trace failed: ")), ran.stdout)
        for text in ("trace: ", *texts):
            self.assertIn(text, message)

    def in_shell(self, line, **given):
        """Runs a line of bash where `trace` is the tool. Its last line has the pipe's statuses."""
        tool = f"trace() {{ {TOOLS}/trace --with {self.with_} \"$@\"; }}"
        arguments = f"{tool}; {line}; echo \"${{PIPESTATUS[@]}}\""
        return self.run_command("bash", "-c", arguments, **given)

    def begin(self, program, *arguments, **given):
        """Starts a trace to a file, and waits until the program writes a line."""
        options = "--with", self.with_, "--kind", "d", "-o", self.folder / "trace.din"
        arguments = [TOOLS / "trace", *options, program, *arguments]
        given = {"stdout": subprocess.PIPE, "start_new_session": True, **given}
        started = subprocess.Popen([str(word) for word in arguments], cwd=self.folder, **given)
        self.addCleanup(started.wait)
        self.addCleanup(started.kill)
        if started.stdout:
            self.addCleanup(started.stdout.close)
            started.stdout.readline()
        return started

    def processes(self):
        """Those whose arguments name a file of this test's folder."""
        folder = str(self.folder).encode()
        return [number for number, words in all_processes("cmdline") if folder in words]

    def no_process_is_left(self):
        self.assertTrue(comes(lambda: not self.processes(), 30), "the program still runs")
